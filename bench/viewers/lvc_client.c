/* lvc_client.c - a viewer on libvncclient. It connects, shows what comes for
 * so many seconds, and writes the screen as PPM.
 *
 *   lvc_client PORT ENCODINGS 8|16|32 OUT.ppm SECONDS */
#include <rfb/rfbclient.h>
#include <stdio.h>
#include <stdlib.h>
#include <string.h>
#include <time.h>

static int updates, bells, texts;

static void on_update(rfbClient *c, int x, int y, int w, int h)
{
    (void)c; (void)x; (void)y; (void)w; (void)h;
    updates++;
}

static void on_bell(rfbClient *c) { (void)c; bells++; }

static void on_text(rfbClient *c, const char *text, int len)
{
    (void)c; (void)text; (void)len;
    texts++;
}

static int write_ppm(rfbClient *c, int bits, const char *name)
{
    FILE *f = fopen(name, "wb");
    if (!f) return 1;
    fprintf(f, "P6\n%d %d\n255\n", c->width, c->height);
    for (long i = 0; i < (long)c->width * c->height; i++) {
        uint32_t p = 0;
        memcpy(&p, c->frameBuffer + i * (bits / 8), (size_t)bits / 8);
        unsigned char rgb[3] = {
            (unsigned char)(((p >> c->format.redShift) & c->format.redMax) * 255 / c->format.redMax),
            (unsigned char)(((p >> c->format.greenShift) & c->format.greenMax) * 255 / c->format.greenMax),
            (unsigned char)(((p >> c->format.blueShift) & c->format.blueMax) * 255 / c->format.blueMax) };
        fwrite(rgb, 1, 3, f);
    }
    return fclose(f) != 0;
}

int main(int n, char **a)
{
    if (n != 6) {
        fprintf(stderr, "lvc_client PORT ENCODINGS 8|16|32 OUT.ppm SECONDS\n");
        return 2;
    }
    int bits = atoi(a[3]);
    rfbClient *c = bits == 8 ? rfbGetClient(2, 3, 1) : bits == 16 ? rfbGetClient(5, 3, 2) : rfbGetClient(8, 3, 4);
    c->appData.encodingsString = a[2];
    c->GotFrameBufferUpdate = on_update;
    c->Bell = on_bell;
    c->GotXCutText = on_text;
    c->serverPort = atoi(a[1]);
    c->serverHost = strdup("127.0.0.1");
    int argc = 1;
    if (!rfbInitClient(c, &argc, a)) {
        printf("no connection\n");
        return 1;
    }
    time_t end = time(NULL) + atoi(a[5]);
    while (time(NULL) < end) {
        int r = WaitForMessage(c, 200000);
        if (r < 0 || (r > 0 && !HandleRFBServerMessage(c))) {
            printf("lost\n");
            return 1;
        }
    }
    printf("%dx%d, %d bits, %s: updates %d, bells %d, texts %d\n", c->width, c->height, bits, a[2], updates, bells, texts);
    return write_ppm(c, bits, a[4]);
}
