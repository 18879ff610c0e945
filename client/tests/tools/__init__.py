"""What stands in for a phone.

    manifests  a device file's packages as AndroidManifest.xml
    apks       APKs of them, by aapt2
    standin    a simulated device that answers as a phone does
    resident   keeps one of them, and answers the program `adb` beside this file
"""
