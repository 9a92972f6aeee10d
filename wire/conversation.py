"""What a client and a box say to each other, a part at a time; a part that goes otherwise is Unexpected."""

READINGS = b"1 CMR/APR 0 1.013E3\n2 off\n"
SHOWN = b"0,+1.0130E+03,5,+2.0000E-02"
# two kinds that a 262 alone tells apart
IKR_READINGS = b"1 IKR9 0 1E-5\n2 IKR11 0 1E-9\n"


def stream(client):
    """COM,0: ten lines a second."""
    client.begin()
    client.accepted(b"COM,0")
    for _ in range(3):
        client.expect(SHOWN + b"\r\n")


def poll(client):
    """PRX: a question is acknowledged, and each ENQ brings its answer once more."""
    client.begin()
    client.asked(b"PRX", SHOWN)
    client.enquired(SHOWN)


def setting(client):
    """UNI: a setting is written, read and put back."""
    client.begin()
    before = client.asked(b"UNI")
    client.accepted(b"UNI,1")
    client.asked(b"UNI", b"1")
    client.accepted(b"UNI," + before)


def refusal(client):
    """FIL,,2: an empty field is refused, ERR says why, and no filter has changed."""
    client.begin()
    before = client.asked(b"FIL")
    client.refused(b"FIL,,2")
    client.asked(b"ERR", b"0001")
    client.asked(b"FIL", before)


def without_gauges(client):
    """PRX of a box that was told of no gauge: status 5 on both channels, and no good data."""
    client.begin()
    client.asked(b"PRX", b"5,+2.0000E-02,5,+2.0000E-02")


def kinds(client):
    """TID: the kind on each channel of a 262."""
    client.begin()
    client.asked(b"TID", b"IKR9,IKR11")


def identity(client):
    """PNR: a 262 tells its program; AYT, which it lacks, is refused, and ERR says why."""
    client.begin()
    client.asked(b"PNR", b"302-510--")
    client.refused(b"AYT")
    client.asked(b"ERR", b"0001")


def change(client, *lines):
    """Settings are written."""
    for line in lines:
        client.accepted(line)


def sheet(first, second, mnemonics):
    """The sheet: each setting of one box goes to another as a line, which then has the same sheet."""
    first.begin()
    replies = [(mnemonic, first.asked(mnemonic)) for mnemonic in mnemonics]
    second.begin()
    for mnemonic, reply in replies:
        second.accepted(mnemonic + b"," + reply)
    for mnemonic, reply in replies:
        second.asked(mnemonic, reply)
