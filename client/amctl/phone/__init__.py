"""A real phone by the real adb: a device file made of it.

    adb      the program adb, run once for each question
    lines    what adb's lines say
    kept     the folder in which an interrupted run goes on: manifests, and the keys that were drawn
    apks     a package's manifest, of its base and its splits, with what is switched on and off on the phone
    asked    what is asked of the phone as a whole, and of each package
    file     the text of the device file
    command  `amctl from-phone`
"""
