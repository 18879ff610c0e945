"""The numbers of Android's attributes in binary manifests, by which Android knows them, whatever name is written."""

# As of API level 29: the last four hexadecimal digits, after 0x0101.
WRITTEN = """
    0000=theme 0001=label 0002=icon 0003=name 0004=manageSpaceActivity 0005=allowClearUserData 0006=permission
    0009=protectionLevel 000b=sharedUserId 000c=hasCode 000d=persistent 000e=enabled 000f=debuggable 0010=exported
    0011=process 0012=taskAffinity 0013=multiprocess 0014=finishOnTaskLaunch 0015=clearTaskOnLaunch 0016=stateNotNeeded
    0017=excludeFromRecents 0018=authorities 001c=priority 001d=launchMode 001e=screenOrientation 001f=configChanges
    0020=description 0021=targetPackage 0024=value 0026=mimeType 0027=scheme 0028=host 0029=port 002a=path
    002b=pathPrefix 002c=pathPattern 01ea=order 0202=targetActivity 0203=alwaysRetainTaskState 0204=allowTaskReparenting 020c=minSdkVersion
    021b=versionCode 021c=versionName 022b=windowSoftInputMode 022d=noHistory 0261=sharedUserLabel 0270=targetSdkVersion
    0271=maxSdkVersion 0272=testOnly 027f=backupAgent 0280=allowBackup 029c=killAfterRestore 029d=restoreNeedsApplication
    02a7=finishOnCloseSystemDialogs 02b7=installLocation 02b8=vmSafeMode 02ba=restoreAnyVersion 02be=logo 02c0=immersive
    02d3=hardwareAccelerated 035a=largeHeap 036a=stopWithTask 0398=uiOptions 03a7=parentActivityName 03a9=isolatedProcess
    03af=supportsRtl 03bf=singleUser 03c9=showOnLockScreen 03d5=restrictedAccountType 03d6=requiredAccountType 03e3=ssp
    03e4=sspPrefix 03e5=sspPattern 03f2=banner 03f4=isGame 03f5=allowEmbedded 042d=persistableMode 0445=documentLaunchMode
    0446=maxRecents 0447=autoRemoveFromRecents 0473=fullBackupOnly 0476=relinquishTaskIdentity 048e=multiArch
    04b2=resumeWhilePausing 04d5=revisionCode 04ea=extractNativeLibs 04eb=fullBackupContent 04ec=usesCleartextTraffic
    04ed=lockTaskMode 04ee=autoVerify 04ef=showForAllUsers 04f6=resizeableActivity 04f7=supportsPictureInPicture
    0504=defaultToDeviceProtectedStorage 0505=directBootAware 050e=externalService 0515=use32bitAbi 051a=backupInForeground
    0525=enableVrMode 0527=networkSecurityConfig 052c=roundIcon 0531=visibleToInstantApps 053a=rotationAnimation
    0545=appCategory 0547=recreateOnConfigChanges 0549=splitName 054a=colorMode 054b=isolatedSplits
    054c=targetSandboxVersion 0554=requiredFeature 0555=requiredNotFeature 055b=isFeatureSplit 0560=maxAspectRatio
    0563=persistentWhenFeatureAvailable 0569=showWhenLocked 056a=turnScreenOn 056b=classLoader 056e=cantSaveState
    0572=compileSdkVersion 0573=compileSdkVersionCodename 0576=versionCodeMajor 057a=appComponentFactory 058e=usesNonSdkApi
    0591=isSplitRequired 0597=useAppZygote 0599=foregroundServiceType 059a=hasFragileUserData 059b=minAspectRatio
    059c=inheritShowWhenLocked 059d=zygotePreloadName 059e=useEmbeddedDex 0600=allowClearUserDataOnFailedRestore
    0601=allowAudioPlaybackCapture 0603=requestLegacyExternalStorage
"""
NUMBERS = {f"0x0101{number}": name for number, name in (entry.split("=") for entry in WRITTEN.split())}
KNOWN = frozenset(NUMBERS.values())
# what the numbers of all of Android's own attributes begin with
ANDROID_NUMBERS = "0x0101"


def name_of(written: str, number: str | None) -> str:
    """The name of an attribute of Android's. One that bears the name of another isn't believed, and has its number."""
    if number in NUMBERS:
        return NUMBERS[number]
    return number if number is not None and (not written or written in KNOWN) else written


def is_android(number: str | None) -> bool:
    return number is not None and number.startswith(ANDROID_NUMBERS)
