/* krfb_main.cpp PORT [password]: krfb's server for who was invited, without a password unless the word is there, a picture and hooks: its own
 * files do the rest. It ends with 2 where it isn't served. A line on stdout says what happens: "serves", "asks HOST" where its user is asked
 * of a viewer, and "key", "pointer", "came" and "went", each with how many there were. Lines on stdin are what its user does: "accept" and
 * "refuse" answer the dialog, "always" accepts each that comes, "stop" and "start" do what the button does, and "quit" ends it. */
#include "connectiondialog.h"
#include "events.h"
#include "eventsplugin.h"
#include "framebuffer.h"
#include "framebufferplugin.h"
#include "invitationsrfbserver.h"
#include "krfb_kde.h"
#include "rfbservermanager.h"
#include <QApplication>
#include <QLabel>
#include <QSocketNotifier>
#include <QTimer>
#include <stdio.h>
#include <unistd.h>

Q_LOGGING_CATEGORY(KRFB, "krfb")

enum { WIDTH = 320, HEIGHT = 200 };

static void tell(const char *what, int count)
{
    printf("%s %d\n", what, count);
    fflush(stdout);
}

class Picture : public FrameBuffer
{
public:
    Picture()
    {
        fb = static_cast<char *>(operator new(WIDTH * HEIGHT * 4)); /* as krfb deletes it as one byte */
        for (int k = 0; k < WIDTH * HEIGHT * 4; k++) fb[k] = k % 4 == 3 ? 0 : char(k / 4 % WIDTH + k % 4 * (k / 4 / WIDTH));
    }
    int width() override { return WIDTH; }
    int height() override { return HEIGHT; }
    int depth() override { return 32; }
    QPoint cursorPosition() override { return {}; }
    void getServerFormat(rfbPixelFormat &format) override
    {
        format.bitsPerPixel = 32;
        format.depth = 24;
        format.trueColour = true;
        format.bigEndian = false;
        format.redShift = 16;
        format.greenShift = 8;
        format.blueShift = 0;
        format.redMax = format.greenMax = format.blueMax = 0xff;
    }
    /* A square of another colour. */
    void draw(int count)
    {
        for (int y = 0; y < 20; y++)
            for (int x = 0; x < 20; x++) fb[((40 + y) * WIDTH + 20 * (count % 10) + x) * 4 + 1] = char(50 + count);
        tiles << QRect(20 * (count % 10), 40, 21, 21); /* one more, as krfb marks up to the last column and row */
    }
};

class Hooks : public EventHandler
{
public:
    void handleKeyboard(bool, rfbKeySym key) override
    {
        tell("key", ++keys);
        if (key == 'd') static_cast<Picture *>(frameBuffer().data())->draw(keys);
    }
    void handlePointer(int, int, int) override { tell("pointer", ++pointers); }
    static int keys, pointers;
};

int Hooks::keys, Hooks::pointers;

class Pictures : public FrameBufferPlugin
{
public:
    Pictures() : FrameBufferPlugin(nullptr, {}) {}
    FrameBuffer *frameBuffer(const QVariantMap &) override { return new Picture; }
};

class HooksPlugin : public EventsPlugin
{
public:
    HooksPlugin() : EventsPlugin(nullptr, {}) {}
    EventHandler *eventHandler() override { return new Hooks; }
};

template <> FrameBufferPlugin *krfb_plugin<FrameBufferPlugin>() { return new Pictures; }
template <> EventsPlugin *krfb_plugin<EventsPlugin>() { return new HooksPlugin; }

/* The dialog that stands open, or none. */
static InvitationsConnectionDialog *dialog()
{
    for (QWidget *it : QApplication::topLevelWidgets())
        if (auto found = qobject_cast<InvitationsConnectionDialog *>(it); found && found->isVisible()) return found;
    return nullptr;
}

/* Says once of each dialog whom it is about, and answers it where it is told to. */
static void look(bool accepts)
{
    InvitationsConnectionDialog *open = dialog();
    if (!open) return;
    if (!open->property("isTold").toBool()) {
        printf("asks %s\n", qPrintable(open->findChild<QLabel *>(QStringLiteral("remoteHost"))->text()));
        fflush(stdout);
        open->setProperty("isTold", true);
    }
    if (accepts) open->accept();
}

int main(int argc, char **argv)
{
    QApplication app(argc, argv);
    QTimer timer;
    QSocketNotifier input(0, QSocketNotifier::Read);
    bool always = false;
    int came = 0, went = 0;
    app.setQuitOnLastWindowClosed(false);
    KrfbConfig::port() = argc > 1 ? atoi(argv[1]) : 5900;
    InvitationsRfbServer::init();
    InvitationsRfbServer::instance->setPasswordRequired(argc > 2);
    QObject::connect(RfbServerManager::instance(), &RfbServerManager::clientConnected, [&] { tell("came", ++came); });
    QObject::connect(RfbServerManager::instance(), &RfbServerManager::clientDisconnected, [&] { tell("went", ++went); });
    QObject::connect(&timer, &QTimer::timeout, [&] { look(always); });
    QObject::connect(&input, &QSocketNotifier::activated, [&] {
        char line[64] = "";
        if (read(0, line, sizeof line - 1) <= 0 || !strcmp(line, "quit\n")) app.quit();
        if (!strcmp(line, "always\n")) always = true;
        if (!strcmp(line, "accept\n") && dialog()) dialog()->accept();
        if (!strcmp(line, "refuse\n") && dialog()) dialog()->reject();
        if (!strcmp(line, "stop\n")) InvitationsRfbServer::instance->stop();
        if (!strcmp(line, "start\n") && InvitationsRfbServer::instance->start()) puts("serves"), fflush(stdout);
    });
    timer.start(10);
    if (!InvitationsRfbServer::instance->start()) return 2;
    puts("serves");
    fflush(stdout);
    return app.exec();
}
