"""A real phone and `am` compared: the same questions to both.

    question   a question, and its outcome
    suite      questions of a file: adb's lines, or tables in TOML
    everyday   a hundred questions made of a device file
    lines      questions as adb's lines, and what adb's lines say
    phone      asks the phone, and puts back what that changed
    simulated  asks `am`, under its device file's rules and under the others
    rules      the rules of docs/PROFILE.md by which `am` answers
    report     the differences as text and as JSON; `junit` writes the other form
    command    `amctl compare`
"""
