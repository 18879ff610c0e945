"""Names and numbers of Android's that several modules use."""

MAIN = "android.intent.action.MAIN"
VIEW = "android.intent.action.VIEW"
APP_BROWSER = "android.intent.category.APP_BROWSER"
BROWSABLE = "android.intent.category.BROWSABLE"
DEFAULT = "android.intent.category.DEFAULT"
LAUNCHER = "android.intent.category.LAUNCHER"
WEB_SCHEMES = ("http", "https")
SYSTEM_UID = 1000
# the packages of a device file have the uids from here on
FIRST_UID = 10000
