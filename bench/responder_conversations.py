"""Worked conversations of peers with a responder, for bench/responders.

One has a line for each thing that happens, and under it, after `=`, what peers are told:

    1 arrive          a link, whose peer connects; `arrive sync` where it proposes sync in its association, `arrive sync 9` where
                      its session begins with number 9
    1 listen          a link whose peer sends nothing by itself
    1 A603800161      the peer sends a PDU or a data element, in its own carriage
    1 check           it sends a check; `ack 2` acknowledges a number, `restart 2 BF2700` restarts at one, `pass` passes the token
    1 raw 0300        it sends octets
    1 tsdu 0100       it sends a TSDU
    1 value 3 A000    it sends P-DATA with a value in a context, here 3
    1 end             the link ends
    user ann 7077     before all else, a user of the filestore, and the octets of a password
    stop 5            the fifth write or sync of the disk fails, which count from the opening on, and all later ones
    life lose         the responder stops, and is opened on what `lose`, `keep` or `fill` leaves of its disk
    = 1 A10381010F    a peer is told a PDU or an element; `check 1`, `ack 1`; `bare` is an abort without a PDU
    = 1 shut          the link is shut

What stands behind `#` is a note. What peers are told was written by hand, by the rules of the profile.
"""

def strings(sign, first, count):
    """Lines of so many strings of one octet, from this number on."""
    return "".join(f"        {sign}1 0401{each:02X}\n" for each in range(first, first + count))


def written_and_read(*lengths):
    """Link 1 writes strings of so many octets, 256 and more, to a new file, and reads them."""
    said = "".join(f"        1 0482{length:04X}{'61' * length}\n" for length in lengths)
    told = said.replace("        1 ", "        = 1 ")
    return f"""
        1 arrive
        1 A00380010F
        = 1 A10381010F
        1 AA0F810161A207800528C27B0503850105
        = 1 AB00
        1 B203800105
        = 1 B309A107800528C27B0503
        1 BF2103800102
{said}        1 BF2200
        1 BF2300
        = 1 BF2400
        1 BF2000
{told}        = 1 BF2200
        1 BF2300
        = 1 BF2400
        1 B400
        = 1 B500
    """


# A file of nine strings that is created, opened, written and read, up to the check after the eighth of them.
READ = f"""        1 AA0F810161A207800528C27B0503850105
        = 1 AB00
        1 B203800105
        = 1 B309A107800528C27B0503
        1 BF2103800102
{strings("", 0, 9)}        1 BF2200
        1 BF2300
        = 1 BF2400
        1 BF2000
{strings("= ", 0, 8)}        = 1 check 1"""

# A recoverable open of a file, which is read, by activity 7: a string was written, and then read up to the end of the data.
READ_UNDER_WAY = """        1 AA0F810161A207800528C27B0503850105
        = 1 AB00
        1 B206800105830107
        = 1 B309A107800528C27B0503
        1 BF2103800102
        1 04026869
        1 BF2200
        1 BF2300
        = 1 BF2400
        1 BF2000
        = 1 04026869
        = 1 BF2200
"""

# The same of twenty strings, in an open that can be recovered, where one check may be open.
TWENTY = f"""
        1 arrive sync
        1 A007800200CF830101
        = 1 A104810200CF
        1 AA0F810161A207800528C27B0503850105
        = 1 AB00
        1 B206800105830105
        = 1 B309A107800528C27B0503
        1 BF2103800102
{strings("", 0, 20)}        1 BF2200
        1 BF2300
        = 1 BF2400
        1 BF2000
{strings("= ", 0, 8)}        = 1 check 1
"""

RECORDS = ("        2 6000\n", "        2 6000\n        2 190142\n", "        2 6000\n        2 190143\n        2 190143\n", "        2 6000\n")


def rewritten(count):
    """Link 2 erases a file of records, and writes so many."""
    written = f"""        2 BF21068001018101FF
{"".join(RECORDS[:count])}        2 BF2200
        2 BF2300
        = 2 BF2400
"""
    return "        2 BE00\n        = 2 BF1F00\n" + (written if count else "")


def shortened(place, count):
    """Link 1 stands behind so many records when the file becomes shorter: no record is the current one or the next, and the
    last one is the previous."""
    previous = f"BD038101{count:02}" if count else "BD05A003800113"
    return f"""{rewritten(place - 1)}        1 BC038001FF
        = 1 BD038101{place:02}
{rewritten(count)}        1 BC038001FC
        = 1 BD05A003800113
        1 BC038001FB
        = 1 BD05A003800113
        1 BF20068001FC810101
        = 1 BF2205A003800113
        1 BF2300
        = 1 BF2405A003800113
        1 BF20068001FB810100
        = 1 BF2205A003800113
        1 BF2300
        = 1 BF2405A003800113
        1 BC038001FA
        = 1 {previous}
"""


# A write in an open that can be recovered: a string, a check after it, and another string.
SECURED = """
        1 arrive sync
        1 A007800200CF830104
        = 1 A107810200CF820104
        1 AA0F810161A207800528C27B0503850104
        = 1 AB00
        1 B206800104830105
        = 1 B309A107800528C27B0503
        1 BF2103800102
        1 0403616263
        1 check
        = 1 ack 1
        1 0403646566
"""

CONVERSATIONS = {
    "unknown": """
        1 arrive
        1 A00380010F
        = 1 A10381010F
        1 A603800161
        = 1 A705A00380010B
        1 AA0C810161A207800528C27B0503
        = 1 AB00
        1 A800
        = 1 A900
        1 A603800161
        = 1 A700
        1 A800
        = 1 A900
        1 A200
        = 1 A300
        = 1 shut
    """,
    # what the stage doesn't take; a TSDU without anything, before the association is accepted
    "aborted": """
        1 arrive
        1 A00380010F
        = 1 A10381010F
        1 B400
        = 1 A503800166
        = 1 shut
        2 arrive
        2 raw 0300000702F080
        = 2 bare
        = 2 shut
    """,
    "ended": """
        1 arrive
        1 A00380010F
        = 1 A10381010F
        1 A403800107
        = 1 shut
        2 arrive
        2 A00380010F
        = 2 A10381010F
        2 end
    """,
    # a group that creates and opens, with threshold 2; a write of three strings
    "session": """
        1 arrive
        1 A00380012F
        = 1 A10381012F
        1 B603800102
        1 AA0F810161A207800528C27B0503850105
        1 B203800105
        1 B800
        = 1 B700
        = 1 AB00
        = 1 B309A107800528C27B0503
        = 1 B900
        1 BF2103800102
        1 04026869
        1 04026A6B
        1 04016C
        1 BF2200
        1 BF2300
        = 1 BF2400
        1 B400
        = 1 B500
        1 A800
        = 1 A900
        1 A200
        = 1 A300
        = 1 shut
    """,
    # a group whose second item is refused creates nothing, also beside what is created after it
    "a group in vain": """
        1 arrive
        1 A00380012F
        = 1 A10381012F
        1 B603800102
        1 AA0F810161A207800528C27B0503850105
        1 B203800102
        1 B800
        = 1 B700
        = 1 AB05A00380011E
        = 1 B305A00380010D
        = 1 B900
        1 AA0F810162A207800528C27B0503850105
        = 1 AB00
        1 A800
        = 1 A900
        1 A603800161
        = 1 A705A00380010B
        life keep
    """,
    # strings about the length from which on one is sent from where the file has it
    "long strings": written_and_read(1_023, 1_024, 1_025, 300),
    # links 1 and 2 read a file, and link 3, which would exclude them from reading, opens it once they have closed it
    "shared": """
        1 arrive
        1 A00380010F
        = 1 A10381010F
        1 AA0F810161A207800528C27B0503850101
        = 1 AB00
        1 B203800101
        = 1 B309A107800528C27B0503
        2 arrive
        2 A00380010F
        = 2 A10381010F
        2 A606800161810101
        = 2 A700
        2 B203800101
        = 2 B309A107800528C27B0503
        3 arrive
        3 A00380010F
        = 3 A10381010F
        3 A606800161810104
        = 3 A700
        3 B20A80010482050300020000
        = 3 B308A006800110820101
        1 B400
        = 1 B500
        3 B20A80010482050300020000
        = 3 B308A006800110820102
        2 B400
        = 2 B500
        3 B20A80010482050300020000
        = 3 B309A107800528C27B0503
    """,
    # the association that stands is told 106 first, also where the recovery is then refused; then a write goes on
    "recovered": """
        1 arrive sync
        1 A007800200CF830104
        = 1 A107810200CF820104
        1 AA0F810161A207800528C27B0503850105
        = 1 AB00
        1 B206800105830107
        = 1 B309A107800528C27B0503
        1 BF2103800102
        1 04026869
        1 check
        = 1 ack 1
        1 04026A6B
        2 arrive sync
        2 A007800200CF830104
        = 2 A107810200CF820104
        2 BA09800107810103820100
        = 1 A50380016A
        = 1 shut
        = 2 BB05A00380011D
        2 BA09800107810101820101
        = 2 BB098101018201018301FF
        2 04026A6B
        2 BF2200
        2 BF2300
        = 2 BF2400
        2 B400
        = 2 B500
    """,
    # a break leaves the controls of a recoverable open with its docket: no other may write; recovered and closed they go
    "docket": """
        1 arrive sync
        1 A007800200CF830104
        = 1 A107810200CF820104
        1 AA0F810161A207800528C27B0503850105
        = 1 AB00
        1 B20D80010582050100020000830107
        = 1 B309A107800528C27B0503
        2 arrive
        2 A00380010F
        = 2 A10381010F
        2 A606800161810104
        = 2 A700
        2 B203800104
        = 2 B30BA009800110810102820101
        1 end
        2 B203800104
        = 2 B30BA0098001108101028201F9
        1 arrive
        3 arrive sync
        3 A007800200CF830104
        = 3 A107810200CF820104
        3 BA06800107810101
        = 3 BB03810101
        2 B203800104
        = 2 B30BA009800110810102820103
        3 B400
        = 3 B500
        2 B203800104
        = 2 B309A107800528C27B0503
    """,
    # a break lets the file of an open that can't be recovered go
    "released": """
        1 arrive
        1 A00380010F
        = 1 A10381010F
        1 AA0F810161A207800528C27B0503850105
        = 1 AB00
        1 B20A80010582050100020000
        = 1 B309A107800528C27B0503
        2 arrive
        2 A00380010F
        = 2 A10381010F
        2 A606800161810104
        = 2 A700
        2 B203800104
        = 2 B30BA009800110810102820101
        1 end
        2 B203800104
        = 2 B309A107800528C27B0503
    """,
    # users: one with its password, one with another and one that is none are refused in the answer to the association
    "users": """
        user ann 7077
        user bob
        1 arrive
        1 A00C80010F8103616E6E82027077
        = 1 A10381010F
        2 arrive sync
        2 A00C80010F8103616E6E82027078
        = 2 A105A003800124
        = 2 shut
        3 arrive
        3 A00880010F8103626F62
        = 3 A10381010F
        4 arrive
        4 A00380010F
        = 4 A105A003800124
        = 4 shut
        1 A200
        = 1 A300
        = 1 shut
    """,
    # a read with checks, and a restart of it
    "read": """
        1 arrive sync
        1 A007800200CF830102
        = 1 A107810200CF820102
""" + READ + """
        = 1 040108
        = 1 BF2200
        1 ack 1
        1 restart 2 BF2703800101
        = 1 BF2803800101
        = 1 040108
        = 1 BF2200
        1 BF2300
        = 1 BF2400
    """,
    # a read that waits for the acknowledgement of its check, since one may be open, and an abandon of it
    "window": """
        1 arrive sync
        1 A007800200CF830101
        = 1 A104810200CF
""" + READ + """
        1 ack 1
        = 1 040108
        = 1 BF2200
        1 BF2500
        = 1 BF2600
        1 B400
        = 1 B500
    """,
    # a write with two checks, a restart at the first one, and other values behind it
    "restarted": """
        1 arrive sync
        1 A007800200CF830104
        = 1 A107810200CF820104
        1 AA0F810161A207800528C27B0503850104
        = 1 AB00
        1 B203800104
        = 1 B309A107800528C27B0503
        1 BF2103800102
        1 04027631
        1 04027632
        1 check
        = 1 ack 1
        1 04027633
        1 04027634
        1 check
        = 1 ack 2
        1 04027635
        1 restart 2 BF2703800101
        = 1 BF2803800101
        1 04027733
        1 BF2200
        1 BF2300
        = 1 BF2400
        life lose
    """,
    # a write that is cancelled is performed up to its last check, and without one not at all
    "cancelled": """
        1 arrive sync
        1 A007800200CF830104
        = 1 A107810200CF820104
        1 AA0F810161A207800528C27B0503850104
        = 1 AB00
        1 B203800104
        = 1 B309A107800528C27B0503
        1 BF2103800102
        1 04027631
        1 check
        = 1 ack 1
        1 04027632
        1 BF2500
        = 1 BF2600
        1 BF2103800102
        1 04027633
        1 BF2500
        = 1 BF2600
        life lose
    """,
    # who has made a file, or selected it, holds it until it lets it go or deletes it; then it is another's
    "held": """
        1 arrive
        1 A00380010F
        = 1 A10381010F
        1 AA0F810161A207800528C27B0503850120
        = 1 AB00
        2 arrive
        2 A00380010F
        = 2 A10381010F
        2 A60B8001618101208203020000
        = 2 A70BA009800110810105820101
        1 AE03800101
        = 1 AF05A103800161
        1 A800
        = 1 A900
        2 A60B8001618101208203020000
        = 2 A700
        2 A800
        = 2 A900
        1 A607800161810200A0
        = 1 A700
        2 A60B8001618101208203020000
        = 2 A70BA009800110810105820101
        1 AC00
        = 1 AD00
        2 A60B8001618101208203020000
        = 2 A705A00380010B
        2 AA14810161A207800528C27B05038501208603020000
        = 2 AB00
    """,
    # a file whose permitted actions are changed stays held, and one that is renamed is held by its new name alone
    "renamed": """
        1 arrive
        1 A00380011F
        = 1 A10381011F
        1 AA0F810161A207800528C27B0503850160
        = 1 AB00
        2 arrive
        2 A00380010F
        = 2 A10381010F
        1 B00381017F
        = 1 B100
        2 A60B8001618101208203020000
        = 2 A70BA009800110810105820101
        1 B003800162
        = 1 B100
        2 A60B8001618101208203020000
        = 2 A705A00380010B
        2 A60B8001628101208203020000
        = 2 A70BA009800110810105820101
        2 AA14810161A207800528C27B05038501208603020000
        = 2 AB00
    """,
    # a docket follows a locate, and an erase makes a version and sets the position back
    "located": """
        1 arrive sync
        1 A007800200CF830104
        = 1 A107810200CF820104
        1 AA0F810162A207800528C27B0502850111
        = 1 AB00
        1 B206800111830105
        = 1 B309A107800528C27B0502
        1 BC038001FF
        = 1 BD03810101
        life lose
        1 arrive sync
        1 A007800200CF830104
        = 1 A107810200CF820104
        1 BA06800105810101
        = 1 BB03810101
        1 BE00
        = 1 BF1F00
    """,
    # a position behind the end, where another party makes the file shorter
    "shortened": """
        1 arrive
        1 A00380010F
        = 1 A10381010F
        1 AA0F810161A207800528C27B0502850101
        = 1 AB00
        1 B203800101
        = 1 B309A107800528C27B0502
        2 arrive
        2 A00380010F
        = 2 A10381010F
        2 A606800161810112
        = 2 A700
        2 B203800112
        = 2 B309A107800528C27B0502
""" + "".join(shortened(place, count) for place in range(2, 6) for count in range(place - 1)),
    # an open that stands under another identity isn't recovered, and stays; closed it leaves no docket
    "another": """
        1 arrive sync
        1 A007800200CF830104
        = 1 A107810200CF820104
        1 AA0F810161A207800528C27B0503850105
        = 1 AB00
        1 B206800105830105
        = 1 B309A107800528C27B0503
        2 arrive sync
        2 A00C800200CF8103616E6E830104
        = 2 A107810200CF820104
        2 BA06800105810101
        = 2 BB05A00380011B
        1 B400
        = 1 B500
        life keep
    """,
    # a read goes on with each acknowledgement of its check, and ends in its docket
    "acknowledged": TWENTY + f"""
        1 ack 1
{strings("= ", 8, 8)}        = 1 check 2
        1 ack 2
{strings("= ", 16, 4)}        = 1 BF2200
        1 BF2300
        = 1 BF2400
        life lose
    """,
    # a read goes on after the point from which it is recovered; its checks have numbers of the new session
    "resumed": TWENTY + f"""
        1 ack 1
{strings("= ", 8, 8)}        = 1 check 2
        life lose
        1 arrive sync
        1 A007800200CF830101
        = 1 A104810200CF
        1 pass
        1 BA09800105810102820101
        = 1 BB098101028201018301FF
{strings("= ", 8, 8)}        = 1 check 1
        1 ack 1
{strings("= ", 16, 4)}        = 1 BF2200
        1 BF2300
        = 1 BF2400
    """,
    # a read that is restarted at its begin, and abandoned
    "abandoned": TWENTY + f"""
        1 restart 1 BF2700
        = 1 BF2800
{strings("= ", 0, 8)}        = 1 check 1
        1 BF2500
        = 1 BF2600
        life lose
    """,
    # a write is in its docket up to its check, from which it is recovered; cancelled then, it is performed up to there
    "secured": SECURED + """
        life lose
        1 arrive sync
        1 A007800200CF830104
        = 1 A107810200CF820104
        1 BA09800105810101820101
        = 1 BB098101018201018301FF
        1 0403676869
        1 BF2500
        = 1 BF2600
    """,
    # a recovery from the begin of a write takes what a check secured from its docket
    "anew": SECURED + """
        life lose
        1 arrive sync
        1 A007800200CF830104
        = 1 A107810200CF820104
        1 BA09800105810101820100
        = 1 BB068101018301FF
        life lose
    """,
    # a restart at the last check leaves what that secured in the docket, and what came after it is gone
    "withdrawn": SECURED + """
        1 restart 2 BF2703800101
        = 1 BF2803800101
        life lose
        1 arrive sync
        1 A007800200CF830104
        = 1 A107810200CF820104
        1 BA09800105810101820101
        = 1 BB098101018201018301FF
        1 BF2200
        1 BF2300
        = 1 BF2400
        life keep
    """,
    # one at the begin takes it away too, so that the write is performed without any value
    "emptied": SECURED + """
        1 restart 2 BF2703800101
        = 1 BF2803800101
        1 restart 1 BF2700
        = 1 BF2800
        life lose
        1 arrive sync
        1 A007800200CF830104
        = 1 A107810200CF820104
        1 BA06800105810101
        = 1 BB068101018301FF
        1 BF2200
        1 BF2300
        = 1 BF2400
        life lose
    """,
    # a read whose file another party has changed isn't taken up again: versions 2 and 3
    "changed": """
        1 arrive sync
        1 A007800200CF830104
        = 1 A107810200CF820104
""" + READ_UNDER_WAY + """        1 end
        2 arrive
        2 A00380010F
        = 2 A10381010F
        2 A606800161810104
        = 2 A700
        2 B203800104
        = 2 B309A107800528C27B0503
        2 BF2103800102
        2 04027878
        2 BF2200
        2 BF2300
        = 2 BF2400
        3 arrive sync
        3 A007800200CF830104
        = 3 A107810200CF820104
        3 pass
        3 BA06800107810102
        = 3 BB0BA009800122810102820103
    """,
}

# A recoverable write, of which a check is acknowledged, up to its end.
BEFORE = """
    1 arrive sync
    1 A007800200CF830104
    = 1 A107810200CF820104
    1 AA0F810161A207800528C27B0503850105
    = 1 AB00
    1 B206800105830107
    = 1 B309A107800528C27B0503
    1 BF2103800102
    1 04026869
    1 check
    = 1 ack 1
    1 04026A6B
    1 BF2200
"""
# The recovery after it: where the commit of the end isn't there, the values after the check are sent again.
LOST = """
    1 arrive sync
    1 A007800200CF830104
    = 1 A107810200CF820104
    1 BA09800107810101820101
    = 1 BB098101018201018301FF
    1 04026A6B
    1 BF2200
    1 BF2300
    = 1 BF2400
    1 B400
    = 1 B500
"""
# Where it is, the transfer is concluded.
STANDS = """
    1 arrive sync
    1 A007800200CF830104
    = 1 A107810200CF820104
    1 BA09800107810101820101
    = 1 BB03810102
    1 B400
    = 1 B500
"""

# One that finds no file.
OTHER = """
    1 arrive
    1 A00380010F
    = 1 A10381010F
    1 A60380017A
    = 1 A705A00380010B
    1 A60380017A
    = 1 A705A00380010B
    1 A200
    = 1 A300
    = 1 shut
"""

# What is at fault on a link, and how it is answered. Before the association is accepted an abort has no PDU, and a fault of
# transport shuts the link without a word.
HOSTILE = {
    "another class": """
        1 listen
        1 raw 0300000B06E00000000140
        = 1 shut
    """,
    "a length that no packet has": """
        1 listen
        1 raw 03000003
        = 1 shut
    """,
    "another version": """
        1 listen
        1 raw 0400
        = 1 shut
    """,
    "data before a connection": """
        1 listen
        1 raw 0300000702F080
        = 1 shut
    """,
    "data without any and without the last mark": """
        1 arrive
        1 raw 0300000702F000
        = 1 shut
    """,
    "the end of a connection, and octets after it": """
        1 arrive
        1 raw 0300000B068000010001000400
        = 1 shut
        1 raw 0300000B06E00000000100
    """,
    "a TPDU that reports an error": """
        1 arrive
        1 raw 0300000904700001000400
        = 1 shut
    """,
    "a token before a session connection": """
        1 arrive
        1 raw 0300000902F0800100
        = 1 bare
        = 1 shut
    """,
    "data before a session connection": """
        1 arrive
        1 tsdu 01000100
        = 1 bare
        = 1 shut
    """,
    "what is no SPDU": """
        1 arrive
        1 tsdu 5500
        = 1 bare
        = 1 shut
    """,
    "a fault in what asks for an association": """
        1 arrive
        1 A0048002000F
        = 1 bare
        = 1 shut
        2 arrive
        2 A000
        = 2 bare
        = 2 shut
    """,
    "another PDU in what asks for an association": """
        1 arrive
        1 tsdu 0D00
        = 1 bare
        = 1 shut
    """,
    "a length that is none": """
        1 arrive
        1 A00380010F
        = 1 A10381010F
        1 value 3 A60380FF61
        = 1 A503800165
        = 1 shut
    """,
    "a value of more than 1,048,576 octets": """
        1 arrive
        1 A00380010F
        = 1 A10381010F
        1 tsdu 01000100618310000100
        = 1 A503800165
        = 1 shut
    """,
    "33 values, each in another": """
        1 arrive
        1 A00380010F
        = 1 A10381010F
        1 tsdu 010001006180308002010330803080308030803080308030803080308030803080308030803080308030803080308030803080308030803080308030803080308030803080
        = 1 A503800165
        = 1 shut
    """,
    "a field that isn't of its form, at its place": """
        1 arrive
        1 A00380010F
        = 1 A10381010F
        1 value 3 A606800161800162
        = 1 A506800165810101
        = 1 shut
    """,
    "a field outside its range, by its tag": """
        1 arrive
        1 A00380010F
        = 1 A10381010F
        1 value 3 A60780016181020100
        = 1 A506800165810101
        = 1 shut
    """,
    "a field that is missing": """
        1 arrive
        1 A00380010F
        = 1 A10381010F
        1 value 3 A603810101
        = 1 A503800165
        = 1 shut
    """,
    "what is no PDU": """
        1 arrive
        1 A00380010F
        = 1 A10381010F
        1 value 3 9F2900
        = 1 A503800165
        = 1 shut
    """,
    "a PDU in another carriage": """
        1 arrive
        1 A00380010F
        = 1 A10381010F
        1 value 3 A200
        = 1 A503800165
        = 1 shut
    """,
    "a context that isn't accepted": """
        1 arrive
        1 A00380010F
        = 1 A10381010F
        1 value 99 A603800161
        = 1 A503800167
        = 1 shut
    """,
    "a check where the session doesn't synchronize": """
        1 arrive
        1 A00380010F
        = 1 A10381010F
        1 tsdu 010031032A0131
        = 1 A503800166
        = 1 shut
    """,
    "a check of another number": """
        1 arrive sync
        1 A004800200CF
        = 1 A104810200CF
        1 tsdu 010031032A0135
        = 1 A503800165
        = 1 shut
    """,
    "what is no SPDU, on an association": """
        1 arrive
        1 A00380010F
        = 1 A10381010F
        1 tsdu 5500
        = 1 A503800165
        = 1 shut
    """,
    "a response": """
        1 arrive
        1 A00380010F
        = 1 A10381010F
        1 A700
        = 1 A503800166
        = 1 shut
    """,
}
