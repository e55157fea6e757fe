"""Makes a campaign document for fwupdemu from what a real fwupd tells.

`devices` reads what fwupd tells of its devices, `metadata` what the LVFS publishes, and `quirks` a folder of quirk
files; `boards`, `components` and `plans` make of them the sections of the document, and `campaign` the whole.
`leftovers` counts what has no place there.
"""
