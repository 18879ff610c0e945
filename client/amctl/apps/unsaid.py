"""What a device file can't say, and what has nothing to do with intents.

An attribute or an element is carried into the device file, or it is in a list below and is passed over in silence;
every other one is reported, also one that Android adds tomorrow.
"""
from collections.abc import Collection, Iterator, Mapping

from amctl.apps.elements import Element
from amctl.apps.sayable import Unsayable, number
from amctl.apps.told import Place, quoted

# Those that the other modules read.
CARRIED_ATTRIBUTES = frozenset(
    """
    authorities enabled exported host launchMode maxSdkVersion mimeGroup mimeType minSdkVersion name path pathAdvancedPattern
    pathPattern pathPrefix pathSuffix permission port priority protectionLevel requiredFeature requiredNotFeature scheme ssp
    sspAdvancedPattern sspPattern sspPrefix sspSuffix targetActivity targetPackage targetSdkVersion taskAffinity versionCode
    versionCodeMajor
    """.split()
)

CARRIED_TAGS = frozenset(
    """
    action activity activity-alias application category data intent intent-filter package permission protected-broadcast
    provider queries receiver service uses-permission uses-permission-sdk-23 uses-permission-sdk-m uses-sdk
    """.split()
)

# Why each is passed over in silence, and which.
SILENT: Mapping[str, str] = {
    "it's what a person sees of an app": """
        attributionsAreUserVisible banner colorMode description enableOnBackInvokedCallback enableVrMode hardwareAccelerated
        icon immersive label localeConfig logo maxAspectRatio minAspectRatio playHomeTransitionSound
        preferMinimalPostProcessing rotationAnimation roundIcon screenOrientation sharedUserLabel supportsRtl theme turnScreenOn
        uiOptions windowSoftInputMode
        """,
    "it's how a window stands on the screen, whoever opened it": """
        canDisplayOnRemoteDevices forceResizable inheritShowWhenLocked resizeableActivity showForAllUsers showOnLockScreen
        showWhenLocked supportsPictureInPicture
        """,
    "it's what the list of recent apps shows": "autoRemoveFromRecents excludeFromRecents",
    "it's whether and how an app is installed": """
        allowUpdateOwnership compileSdkVersion compileSdkVersionCodename coreApp emergencyInstaller extractNativeLibs hasCode
        installLocation isFeatureSplit isSplitRequired isolatedSplits multiArch requiredSplitTypes revisionCode splitName
        splitTypes targetSandboxVersion testOnly updatableSystem use32bitAbi useEmbeddedDex versionName
        """,
    "it's how an app's own code and memory are run": """
        allowNativeHeapPointerTagging appComponentFactory classLoader configChanges debuggable gwpAsanMode isGame largeHeap
        memtagMode nativeHeapZeroInitialized pageSizeCompat persistent persistentWhenFeatureAvailable recreateOnConfigChanges
        resumeWhilePausing useAppZygote vmSafeMode zygotePreloadName
        """,
    "it's what an app keeps, where, and how it's backed up": """
        allowBackup allowClearUserData allowClearUserDataOnFailedRestore backupAgent backupInForeground dataExtractionRules
        defaultToDeviceProtectedStorage fullBackupContent fullBackupOnly hasFragileUserData killAfterRestore persistableMode
        preserveLegacyExternalStorage requestLegacyExternalStorage requestOptimizedExternalStorageAccess
        requestRawExternalStorageAccess restoreAnyVersion restoreNeedsApplication rollbackDataPolicy stateNotNeeded
        """,
    "it's what an app may do once it runs": """
        allowAudioPlaybackCapture appCategory attributionTags autoRevokePermissions foregroundServiceType isMonitoringTool
        networkSecurityConfig requestForegroundServiceExemption requiredAccountType restrictedAccountType usesCleartextTraffic
        usesNonSdkApi usesPermissionFlags
        """,
    "it names what the app or the system opens by a component's name": "manageSpaceActivity parentActivityName",
}
SILENT_ATTRIBUTES = frozenset(" ".join(SILENT.values()).split())

SILENT_ELEMENTS: Mapping[str, str] = {
    "it's whether and how an app is installed": """
        compatible-screens eat-comment feature-group install-constraints key-sets module restrict-update supports-gl-texture
        supports-input supports-screens package-verifier upgrade-key-set uses-configuration uses-feature uses-gl-texture
        uses-split
        """,
    "it's code or resources of other packages": """
        library overlay resource-overlay sdk-library static-library uses-library uses-native-library uses-package
        uses-sdk-library uses-static-library
        """,
    "it's how an app's own code is run, and who watches it": "attribution profileable",
    "it's for who reads it by name": "meta-data property",
    "it's how a window stands on the screen": "layout",
}
SILENT_TAGS = frozenset(" ".join(SILENT_ELEMENTS.values()).split())

# What an attribute says if it says what a device does anyway; the others are switches, which are off.
OFF = ("false", "0")
USUAL: Mapping[str, tuple[str, ...]] = {
    "allowCrossUidActivitySwitchFromBelow": ("true", "1", "-1"),
    "documentLaunchMode": ("none", "0"),
    "intentMatchingFlags": ("none", "0"),
    "lockTaskMode": ("normal", "0"),
    "requireContentUriPermissionFromCaller": ("none", "0"),
}

# The names of what a binary manifest has as numbers.
NAMED: Mapping[str, tuple[str, ...]] = {
    "documentLaunchMode": ("none", "intoExisting", "always", "never"),
    "lockTaskMode": ("normal", "never", "always", "if_whitelisted"),
    "requireContentUriPermissionFromCaller": ("none", "read", "write", "readOrWrite", "readAndWrite"),
}


def plain(name: str, value: str) -> str:
    """A value as it is reported: by its name if it has one, and a number in decimal digits."""
    try:
        found = number(value)
    except Unsayable:
        return value
    names = NAMED.get(name, ())
    return names[found] if 0 <= found < len(names) else str(found)


def is_usual(name: str, value: str) -> bool:
    """Whether it says what a device does anyway."""
    return plain(name, value).lower() in USUAL.get(name, OFF)


def unsaid_of(element: Element) -> Iterator[tuple[str, str]]:
    """The attributes of an element that a device file can't say, by their names."""
    for name, value in sorted(element.attributes.items()):
        if name not in CARRIED_ATTRIBUTES and name not in SILENT_ATTRIBUTES and not is_usual(name, value):
            yield name, plain(name, value)


def tell_attributes(element: Element, place: Place, where: str = "") -> None:
    for name, value in unsaid_of(element):
        place.left_out(f"{name} {quoted(value)}{where}", f"a device file has no {name}")


def tell_children(element: Element, carried: Collection[str], place: Place, where: str = "") -> None:
    """Reports the children that no other module reads."""
    for child in element.children:
        if child.name not in carried and child.name not in SILENT_TAGS:
            name = child.get("name")
            what = child.name if name is None else f"{child.name} {quoted(name)}"
            why = "it has no place there" if child.name in CARRIED_TAGS else f"a device file has no {child.name}"
            place.left_out(f"{what}{where}", why)
