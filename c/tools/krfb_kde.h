/* krfb_kde.h: as much of KDE's libraries as the part of krfb that speaks to viewers asks for, without KDE: it has no wallet, publishes
 * nothing, and its plugins are those of krfb_main.cpp. rfb_krfb.py has each of KDE's headers include this one. */
#ifndef KRFB_KDE_H
#define KRFB_KDE_H

#include <QAbstractButton>
#include <QDebug>
#include <QList>
#include <QLoggingCategory>
#include <QObject>
#include <QString>
#include <QStringList>
#include <QVariant>
#include <QWidget>
#include <functional>

Q_DECLARE_LOGGING_CATEGORY(KRFB)

inline QString i18n(const char *text) { return QString::fromUtf8(text); }

template <typename... Rest>
QString i18n(const char *text, const QString &first, const Rest &...rest)
{
    return QString::fromUtf8(text).arg(first, rest...);
}

/* The settings of krfb.kcfg. */
struct KrfbConfig {
    static KrfbConfig *self()
    {
        static KrfbConfig config;
        return &config;
    }
    static int &port()
    {
        static int number;
        return number;
    }
    static bool allowDesktopControl() { return true; }
    static bool noWallet() { return true; }
    static bool publishService() { return false; }
    static QString preferredFrameBufferPlugin() { return QStringLiteral("test"); }
    void save() {}
};

struct KUser {
    QString loginName() const { return QStringLiteral("user"); }
};

struct KNotification {
    static void event(const QString &name, const QString &text) { qInfo().noquote() << name << text; }
};

struct KWindowSystem {
    static bool isPlatformX11() { return false; }
    static bool isPlatformWayland() { return false; }
};

struct KStringHandler {
    static QString obscure(const QString &text) { return text; }
};

struct KSharedConfig {
    static int openConfig() { return 0; }
};

struct KConfigGroup {
    KConfigGroup(int, const QString &) {}
    QVariant readEntry(const char *, const QVariant &otherwise) const { return otherwise; }
    QString readEntry(const char *, const QString &otherwise) const { return otherwise; }
    void writeEntry(const char *, const QVariant &) {}
    void deleteEntry(const char *) {}
};

struct KGuiItem {
    QString text;
    void setText(const QString &other) { text = other; }
    static void assign(QAbstractButton *button, const KGuiItem &item) { button->setText(item.text); }
};

struct KStandardGuiItem {
    static KGuiItem ok() { return {}; }
    static KGuiItem cancel() { return {}; }
};

/* A plugin that is found wherever one is looked for. */
struct KPluginMetaData {
    enum Option { AllowEmptyMetaData };
    QString pluginId() const { return QStringLiteral("test"); }
    QString fileName() const { return pluginId(); }
    QStringList value(const QString &, const QStringList &otherwise) const { return otherwise; }
    static QList<KPluginMetaData> findPlugins(const QString &, const std::function<bool(const KPluginMetaData &)> &, Option) { return {{}}; }
};

/* What krfb_main.cpp makes of it. */
template <typename T> T *krfb_plugin();

struct KPluginFactory {
    template <typename T> struct Result {
        T *plugin;
        QString errorString;
    };
    template <typename T> static Result<T> instantiatePlugin(const KPluginMetaData &) { return {krfb_plugin<T>(), {}}; }
};

namespace KWallet {
class Wallet : public QObject
{
    Q_OBJECT
public:
    enum Way { Asynchronous };
    static QString NetworkWallet() { return {}; }
    static Wallet *openWallet(const QString &, int, Way) { return nullptr; }
    bool isOpen() const { return false; }
    bool hasFolder(const QString &) const { return false; }
    bool setFolder(const QString &) { return false; }
    bool createFolder(const QString &) { return false; }
    QString currentFolder() const { return {}; }
    int readPassword(const QString &, QString &) { return -1; }
    int writePassword(const QString &, const QString &) { return -1; }
Q_SIGNALS:
    void walletOpened(bool opened);
};
}

namespace KDNSSD {
class PublicService : public QObject
{
public:
    PublicService(const QString &, const QString &, int) {}
    void publishAsync() {}
    bool isPublished() const { return false; }
    void stop() {}
};
}

#endif
