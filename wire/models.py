"""The models, a row each: all that is known of them outside the engine."""

import collections

# fresh: the byte of the frame that makes one; kinds: the names that its TID sends, each in the place of its number;
# sheet: the settings that a client copies, in their order
Model = collections.namedtuple("Model", "fresh kinds sheet")

KINDS = "TPR/PCR IKR PKR PBR IMR CMR/APR noSEn noid".split()
SHEET = b"UNI FIL CAL DCD SP1 SP2 SP3 SP4 ERA EVA FMT LNG NAD PRE PRO PUC DCS".split()

MODELS = {
    "361": Model(b"\x01", KINDS, SHEET),
    "362": Model(b"\x02", KINDS, SHEET),
    "262": Model(
        b"\x03",
        "TPR IKR9 PKR PBR IMR CMR noSEn noid IKR11".split(),
        b"UNI FIL CAL DCD SP1 SP2 SP3 SP4 PUC DIC SCT WDT TLC LOC".split()),
}

# the one where none is named
USUAL = "362"
