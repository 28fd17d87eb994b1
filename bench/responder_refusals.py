"""Conversations of several peers with a responder in which something is refused, for bench/responders, written as those of
responder_conversations.py are: refusals that need another party, a docket, users or a session, each by itself, and each two
that can stand together by which goes first. A note behind `#` says what stands against a request, and how it is answered.

What peers are told was written by hand, by the rules of the profile.
"""

from responder_conversations import READ_UNDER_WAY, SECURED, strings


def arrives(link, units="0F", identity=""):
    """A link whose peer asks for units, by an identity in digits, and is accepted."""
    fields = f"8001{units}" + (f"81{len(identity) // 2:02X}{identity}" if identity else "")
    return f"""
        {link} arrive
        {link} A0{len(fields) // 2:02X}{fields}
        = {link} A1038101{units}
    """


def arrives_in_sync(link, identity="", first="", window=4):
    """One whose peer synchronizes, from a number on if one is given, and asks for all units and for a window."""
    fields = "800200FF" + (f"81{len(identity) // 2:02X}{identity}" if identity else "") + f"8301{window:02X}"
    return f"""
        {link} arrive sync {first}
        {link} A0{len(fields) // 2:02X}{fields}
        = {link} {f"A107810200FF8201{window:02X}" if window > 1 else "A104810200FF"}
    """


ANN, BOB = "616E6E", "626F62"

def plain_in_sync(link):
    """One whose peer synchronizes, without the units that need it."""
    return f"""
        {link} arrive sync
        {link} A00380010F
        = {link} A10381010F
    """


def opens(arrived, link, mode):
    """Such a link, which opens file "a"."""
    return arrived + f"""
        {link} A6068001618101{mode}
        = {link} A700
        {link} B2038001{mode}
        = {link} B309A107800528C27B0503
    """


def replaced(link):
    """A link that replaces the contents of file "a", which has a version more then."""
    return arrives(link) + f"""
        {link} A606800161810104
        = {link} A700
        {link} B203800104
        = {link} B309A107800528C27B0503
        {link} BF2103800102
        {link} 04027878
        {link} BF2200
        {link} BF2300
        = {link} BF2400
    """


def sixteen():
    """Sixteen links, each with a recoverable open of file "a" by an activity of its own; the first eight of them break."""
    made = ""
    for link in range(1, 17):
        selected = ("AA0F810161A207800528C27B0503850105", "AB00") if link == 1 else ("A606800161810105", "A700")
        made += arrives_in_sync(link) + f"""
        {link} {selected[0]}
        = {link} {selected[1]}
        {link} B2068001018301{link:02X}
        = {link} B309A107800528C27B0503
        """
    return made + "".join(f"        {link} end\n" for link in range(1, 9))


def twenty_strings(**session):
    """A file of twenty strings in a recoverable open by activity 7."""
    return arrives_in_sync(1, **session) + f"""
        1 AA0F810161A207800528C27B0503850105
        = 1 AB00
        1 B206800105830107
        = 1 B309A107800528C27B0503
        1 BF2103800102
{strings("", 0, 20)}        1 BF2200
        1 BF2300
        = 1 BF2400
    """


def told(link, first, count):
    """Of these strings so many, from one on, as the link is told them."""
    return "".join(f"        = {link} 0401{each:02X}\n" for each in range(first, first + count))


def reads(link, check):
    """They are read to their end, with two checks from this number on."""
    return f"""
        {link} BF2000
{told(link, 0, 8)}        = {link} check {check}
{told(link, 8, 8)}        = {link} check {check + 1}
{told(link, 16, 4)}        = {link} BF2200
    """


# Each message that a read under way doesn't take, in the order of their tags; an element, and a response.
OUT_OF_PLACE = (
    "A200", "A603800161", "A800", "AA0C810162A207800528C27B0503", "AC00", "AE03800101", "B003800162", "B203800101", "B400",
    "B603800101", "B800", "BA06800107810101", "BC038001FF", "BE00", "BF2000", "BF2103800102", "BF2200", "BF2300", "0401FF", "BF2400",
)  # fmt: skip


def waits_in_read(link, message):
    """A link whose read of file "a" waits for its check to be acknowledged when a message comes."""
    return opens(arrives_in_sync(link, window=1), link, "01") + f"""
        {link} BF2000
{told(link, 0, 8)}        = {link} check 1
        {link} {message}
        = {link} A503800166
        = {link} shut
    """


# A resynchronization by which a cancel comes with number 1, which the answer's passes.
CANCEL = "0100" + "3519" + "1A0100" + "1B0101" + "2A0131" + "C10E300C610A3008020103A003BF2500"

REFUSALS = {
    # ann has made a file on which all but deletion is permitted, and of which she may read attributes with a password; she holds
    # it, and lets nobody else do so
    "a selection": arrives(1, identity=ANN) + """
        1 AA2B810161A207800528C27B050383017FA40E300C8003616E6E81012082027077850120860302000087027077
        = 1 AB00
    """ + arrives(2, identity=ANN) + arrives(3, identity=BOB) + arrives(4, units="07", identity=ANN) + """
        2 A60A80016181012083027077                              # the holder: 16, of reading attributes, by link 1
        = 2 A70BA009800110810105820101
        2 A60B800161810200A083027077                            # deletion isn't permitted, and the holder: 13
        = 2 A705A00380010D
        2 A60F800161810120820303000083027077                    # no access for itself, and the holder: 13
        = 2 A705A00380010D
        3 A60A80016181012083027077                              # no term of bob, and the holder: 14
        = 3 A705A00380010E
        2 A60A80016181012083027078                              # another password, and the holder: 15
        = 2 A705A00380010F
        2 A606800161810120                                      # no password, and the holder: 15
        = 2 A705A00380010F
        2 AA16800101810161A207800528C27B050385012087027077      # the same over the file that is there
        = 2 AB0BA009800110810105820101
        2 AA17800101810161A207800528C27B0503850200A087027077
        = 2 AB05A00380010D
        2 AA1B800101810161A207800528C27B0503850120860303000087027077
        = 2 AB05A00380010D
        3 AA16800101810161A207800528C27B050385012087027077
        = 3 AB05A00380010E
        2 AA16800101810161A207800528C27B050385012087027078
        = 2 AB05A00380010F
        2 AA13810161A207800528C27B050385012087027077            # the file isn't to be overridden, and the holder: 12
        = 2 AB05A00380010C
        4 AA16800101810161A207800528C27B050385012087027077      # limited management isn't agreed, and the holder: 33
        = 4 AB05A003800121
        4 AA13810161A207800528C27B050385012087027077            # nor is the file to be overridden: 33
        = 4 AB05A003800121
        1 A800
        = 1 A900
        2 A60A80016181012083027077
        = 2 A700
    """,
    # a file isn't renamed under another holder
    "a change of attributes": arrives(1, units="1F") + """
        1 AA0C810162A207800528C27B0503
        = 1 AB00
        1 A800
        = 1 A900
        1 AA0F810161A207800528C27B0503850140
        = 1 AB00
    """ + arrives(2) + """
        2 A606800161810140
        = 2 A700
    """ + arrives(3, units="1F") + """
        3 A603800161
        = 3 A700
        1 B003800163                                            # others hold it: 16, of changing attributes, by link 2
        = 1 B10BA009800110810106820102
        1 B003800162                                            # a file has the name, and others hold it: 12
        = 1 B105A00380010C
        1 B006800163830101                                      # an attribute that isn't supported, and others hold it: 31
        = 1 B105A00380011F
        3 B003800163                                            # the change isn't requested, and others hold it: 13
        = 3 B105A00380010D
        2 B003800163                                            # enhanced management isn't agreed, and others hold it: 33
        = 2 B105A003800121
        1 B003800161                                            # its own name is none that changes
        = 1 B100
        2 A800
        = 2 A900
        1 B003800163
        = 1 B10BA009800110810106820103
        3 A800
        = 3 A900
        1 B003800163
        = 1 B100
    """,
    # nor is it deleted
    "a deletion": arrives(1) + """
        1 AA10810161A207800528C27B050385020080
        = 1 AB00
    """ + arrives(2) + """
        2 A603800161
        = 2 A700
    """ + arrives(3, units="07") + """
        3 A60780016181020080
        = 3 A700
        1 AC00                                                  # others hold it: 16, of deletion, by link 2
        = 1 AD0BA009800110810107820102
        2 AC00                                                  # deletion isn't requested, and others hold it: 13
        = 2 AD05A00380010D
        3 AC00                                                  # limited management isn't agreed, and others hold it: 33
        = 3 AD05A003800121
        2 A800
        = 2 A900
        3 A800
        = 3 A900
        1 AC00
        = 1 AD00
    """,
    # a file of another, for a party without limited and enhanced management
    "a unit that isn't agreed": arrives(1) + """
        1 AA0C810161A207800528C27B0503
        = 1 AB00
        1 A800
        = 1 A900
    """ + arrives(2, units="07") + """
        2 AA0C810161A207800528C27B0503                          # a file has the name: 33
        = 2 AB05A003800121
        2 A607800161810200E0
        = 2 A700
        2 AE03800101                                            # 33 of each of them
        = 2 AF05A003800121
        2 AC00
        = 2 AD05A003800121
        2 B003800162
        = 2 B105A003800121
        2 AE0480020200                                          # an attribute that isn't supported: 33
        = 2 AF05A003800121
        2 B006800162830101
        = 2 B105A003800121
        2 A800
        = 2 A900
        2 A603800161
        = 2 A700
        2 AE03800101                                            # the action isn't requested: 33
        = 2 AF05A003800121
        2 AC00
        = 2 AD05A003800121
        2 B003800162
        = 2 B105A003800121
    """,
    # a docket holds its file as its party did: it is named by its activity, below 0
    "a docket": arrives_in_sync(1) + """
        1 AA14810161A207800528C27B05038501208603020000
        = 1 AB00
        1 B206800100830107
        = 1 B309A107800528C27B0503
        1 end
    """ + arrives(2, units="1F") + """
        2 A606800161810120                                      # 16, of reading attributes, by activity 7
        = 2 A70BA0098001108101058201F9
        2 AA12800101810161A207800528C27B0503850120
        = 2 AB0BA0098001108101058201F9
        2 A607800161810200C0
        = 2 A700
        2 B003800162                                            # 16, of changing attributes
        = 2 B10BA0098001108101068201F9
        2 AC00                                                  # 16, of deletion
        = 2 AD0BA0098001108101078201F9
    """,
    # an open that would have reading for itself alone, beside another
    "an open": arrives(1) + """
        1 AA0F810161A207800528C27B0503850101
        = 1 AB00
        1 B203800101
        = 1 B309A107800528C27B0503
    """ + arrives(2) + """
        2 A606800161810107
        = 2 A700
        2 B20A80010182050200000000                              # the other open: 16, of reading, by link 1
        = 2 B308A006800110820101
        2 B20A80010882050202020202                              # extension isn't requested, and the other open: 13
        = 2 B305A00380010D
        2 B20A80010182050300000000                              # no access for itself, and the other open: 13
        = 2 B305A00380010D
        2 B213800101A107800528C27B050182050200000000            # other contents, and the other open: 17
        = 2 B305A003800111
        2 B20A80010282050202000000                              # nothing is inserted there, and the other open: 18
        = 2 B305A003800112
        2 B20D80010182050200000000830107                        # recovery isn't agreed, and the other open: 33
        = 2 B305A003800121
        1 B400
        = 1 B500
        2 B20A80010182050200000000
        = 2 B309A107800528C27B0503
    """,
    # an activity in use, by an open that stands and by a docket
    "an activity in use": arrives_in_sync(1) + """
        1 AA0F810161A207800528C27B0503850105
        = 1 AB00
        1 B206800101830107
        = 1 B309A107800528C27B0503
    """ + arrives_in_sync(2) + """
        2 A606800161810107
        = 2 A700
        2 B206800101830107                                      # 28
        = 2 B305A00380011C
        2 B206800108830107                                      # extension isn't requested, and in use: 13
        = 2 B305A00380010D
        2 B20D80010182050300000000830107                        # no access for itself, and in use: 13
        = 2 B305A00380010D
        2 B20F800101A107800528C27B0501830107                    # other contents, and in use: 17
        = 2 B305A003800111
        2 B206800102830107                                      # nothing is inserted there, and in use: 18
        = 2 B305A003800112
        2 B20D80010182050200000000830107                        # the other open, and in use: 16
        = 2 B308A006800110820101
    """ + arrives(3) + """
        3 A606800161810101
        = 3 A700
        3 B206800101830107                                      # recovery isn't agreed, and in use: 33
        = 3 B305A003800121
        1 end
        2 B206800101830107
        = 2 B305A00380011C
        2 B206800108830107
        = 2 B305A00380010D
        2 B20F800101A107800528C27B0501830107
        = 2 B305A003800111
        2 B206800102830107
        = 2 B305A003800112
        2 B20D80010182050200000000830107                        # 16, by activity 7
        = 2 B308A0068001108201F9
        3 B206800101830107
        = 3 B305A003800121
        2 B206800101830108
        = 2 B309A107800528C27B0503
    """ + arrives_in_sync(4, identity=ANN) + """
        4 A606800161810101
        = 4 A700
        4 B206800101830107                                      # another identity has activities of its own
        = 4 B309A107800528C27B0503
    """,
    # sixteen dockets and recoverable opens, and a seventeenth
    "too many dockets": sixteen() + arrives_in_sync(17) + """
        17 A606800161810107
        = 17 A700
        17 B206800101830111                                     # 35
        = 17 B305A003800123
        17 B206800101830103                                     # one of the dockets, and too many: 28
        = 17 B305A00380011C
        17 B20680010183010C                                     # one of the opens, and too many: 28
        = 17 B305A00380011C
        17 B206800108830111                                     # extension isn't requested, and too many: 13
        = 17 B305A00380010D
        17 B20F800101A107800528C27B0501830111                   # other contents, and too many: 17
        = 17 B305A003800111
        17 B206800102830111                                     # nothing is inserted there, and too many: 18
        = 17 B305A003800112
        17 B20D80010182050200000000830111                       # another open, and too many: 16, by the first link
        = 17 B308A006800110820109
    """ + arrives(18) + """
        18 A606800161810101
        = 18 A700
        18 B206800101830111                                     # recovery isn't agreed, and too many: 33
        = 18 B305A003800121
        18 B203800101                                           # an open that can't be recovered is none of them
        = 18 B309A107800528C27B0503
        16 B603800102                                           # an open that its group has closed before doesn't count
        16 B400
        16 B206800101830111
        16 B800
        = 16 B700
        = 16 B500
        = 16 B309A107800528C27B0503
        = 16 B900
        17 B206800101830110
        = 17 B305A003800123
        15 B400
        = 15 B500
        17 B206800101830110
        = 17 B309A107800528C27B0503
        life lose
    """ + arrives_in_sync(1) + """
        1 A606800161810105
        = 1 A700
        1 B206800101830112                                      # sixteen dockets: 35
        = 1 B305A003800123
        1 B206800101830101
        = 1 B305A00380011C
        1 A800
        = 1 A900
        1 BA06800101810101
        = 1 BB03810101
        1 B400
        = 1 B500
        1 B206800101830112
        = 1 B309A107800528C27B0503
    """,
    # a read under way: which of its refusals comes first, without the token by which it would go on
    "a recovery": arrives_in_sync(1) + READ_UNDER_WAY + "        1 end\n" + arrives_in_sync(2) + """
        2 BA06800109810101                                      # no such activity: 27
        = 2 BB05A00380011B
        2 BA06800107810103                                      # a number that is none: 29
        = 2 BB05A00380011D
        2 BA06800107810101                                      # that of the transfer before: 29
        = 2 BB05A00380011D
    """ + arrives(3) + """
        3 BA06800109810101                                      # recovery isn't agreed, and no such activity: 33
        = 3 BB05A003800121
        3 BA06800107810103
        = 3 BB05A003800121
        2 BA06800107810102                                      # the token isn't passed: 102
        = 2 A503800166
        = 2 shut
    """ + replaced(4) + arrives_in_sync(5) + """
        5 BA06800107810103                                      # another number, and the file has changed: 29
        = 5 BB05A00380011D
        5 BA06800107810102                                      # the file has changed, and the token isn't passed: 34
        = 5 BB0BA009800122810102820103
        3 BA06800107810102                                      # recovery isn't agreed, and the file has changed: 33
        = 3 BB05A003800121
    """,
    # the association that stands is aborted first, however the recovery is answered then
    "a recovery that supersedes": arrives_in_sync(1) + READ_UNDER_WAY + arrives(2) + """
        2 BA06800107810102                                      # 33
        = 1 A50380016A
        = 1 shut
        = 2 BB05A003800121
    """ + arrives_in_sync(3) + """
        3 pass
        3 BA06800107810102
        = 3 BB068101028301FF
        = 3 04026869
        = 3 BF2200
    """ + arrives_in_sync(4) + """
        4 BA06800107810102                                      # the token isn't passed: 102
        = 3 A50380016A
        = 3 shut
        = 4 A503800166
        = 4 shut
    """ + arrives_in_sync(5) + """
        5 pass
        5 BA06800107810102
        = 5 BB068101028301FF
        = 5 04026869
        = 5 BF2200
    """ + replaced(6) + arrives_in_sync(7) + """
        7 BA06800107810102                                      # 34
        = 5 A50380016A
        = 5 shut
        = 7 BB0BA009800122810102820103
    """,
    # a check has the last number, and the next one has none: the read stays under way in its docket
    "no number for a check": twenty_strings(first=999_999) + f"""
        1 BF2000
{told(1, 0, 8)}        = 1 check 999999
{told(1, 8, 8)}        = 1 A503800169
        = 1 shut
        life lose
    """,
    # the same where the first check is acknowledged before, up to which the read is secured then
    "no number for a check after an acknowledgement": twenty_strings(first=999_999, window=1) + f"""
        1 BF2000
{told(1, 0, 8)}        = 1 check 999999
        1 ack 999999
{told(1, 8, 8)}        = 1 A503800169
        = 1 shut
        life lose
    """,
    # the same where a read is recovered in a session of such numbers, and then in another one
    "no number for a check after a recovery": twenty_strings(window=1) + f"""
        1 BF2000
{told(1, 0, 8)}        = 1 check 1
        1 end
    """ + arrives_in_sync(2, first=999_999) + f"""
        2 pass
        2 BA06800107810102
        = 2 BB068101028301FF
{told(2, 0, 8)}        = 2 check 999999
{told(2, 8, 8)}        = 2 A503800169
        = 2 shut
    """ + arrives_in_sync(3) + f"""
        3 pass
        3 BA06800107810102
        = 3 BB068101028301FF
{told(3, 0, 8)}        = 3 check 1
{told(3, 8, 8)}        = 3 check 2
{told(3, 16, 4)}        = 3 BF2200
        3 BF2300
        = 3 BF2400
        life lose
    """,
    # the answer to a cancel has no number behind the last check, and nothing is performed; a restart takes that check back first, and
    # always has an answer, whose number is its own
    "no number for a cancel": arrives_in_sync(1, first=999_999) + f"""
        1 AA0F810161A207800528C27B0503850104
        = 1 AB00
        1 B206800104830107
        = 1 B309A107800528C27B0503
        1 BF2103800102
        1 04027631
        1 check
        = 1 ack 999999
        1 restart 999999 BF2700
        = 1 BF2800
        1 04027632
        1 check
        = 1 ack 999999
        1 04027633
        1 tsdu {CANCEL}
        = 1 A503800169
        = 1 shut
        life lose
    """,
    # a cancel performs what stands before the last check where that isn't refused, whatever comes after it
    "a cancel": arrives_in_sync(1) + """
        1 AA0F810161A207800528C27B0503850104
        = 1 AB00
        1 B206800104830107
        = 1 B309A107800528C27B0503
        1 BF2103800102
        1 160141                                                # no element of a binary file
        1 check
        = 1 ack 1
        1 BF2500
        = 1 BF2600
        1 BF2103800103                                          # extension isn't in the mode
        1 0401AA
        1 check
        = 1 ack 2
        1 BF2500
        = 1 BF2600
        1 BF2103800102
        1 0401BB
        1 check
        = 1 ack 3
        1 BF2205A00380010B                                      # the peer gives it up, and then cancels it
        1 BF2500
        = 1 BF2600
        1 BF2103800102
        1 0401CC
        1 check
        = 1 ack 4
        1 160141
        1 BF2500
        = 1 BF2600
        life lose
    """,
    # requests for which the token or a unit lacks, and restarts of another number
    "an abort of a session": arrives_in_sync(1) + """
        1 AA0C810161A207800528C27B0503
        = 1 AB00
    """ + opens(arrives_in_sync(2), 2, "05") + """
        2 value 3 BF2000                                        # a read without the token: 102
        = 2 A503800166
        = 2 shut
    """ + opens(arrives_in_sync(3), 3, "04") + """
        3 value 3 BF2000                                        # one that isn't in the mode either: 102
        = 3 A503800166
        = 3 shut
    """ + opens(plain_in_sync(4), 4, "05") + """
        4 value 3 BF2000                                        # without checkpoints it needs no token
        = 4 BF2200
        4 BF2300
        = 4 BF2400
        4 BF2103800102
        4 0401FF
        4 check                                                 # neither restart nor recovery is agreed: 102
        = 4 A503800166
        = 4 shut
    """ + opens(plain_in_sync(5), 5, "04") + """
        5 BF2103800102
        5 restart 1 BF2700                                      # nor for a restart: 102
        = 5 A503800166
        = 5 shut
    """ + opens(arrives_in_sync(6), 6, "04") + """
        6 BF2103800102
        6 check
        = 6 ack 1
        6 restart 1 BF2703800101                                # point 1 has number 2: 101
        = 6 A503800165
        = 6 shut
    """ + arrives_in_sync(7) + """
        7 restart 1 BF2700                                      # no transfer: 102
        = 7 A503800166
        = 7 shut
    """ + opens(arrives(8), 8, "04") + """
        8 BF2103800102
        8 BF2700                                                # without a session for it: 102
        = 8 A503800166
        = 8 shut
    """,
    # a read whose elements are still to be sent: what its stage doesn't take
    "a read under way": twenty_strings() + "".join(waits_in_read(link, message) for link, message in enumerate(OUT_OF_PLACE, 2)),
    # a check of an earlier read is at the begin of the next one, which changes nothing, or before it
    "an acknowledgement of an earlier read": twenty_strings() + reads(1, 1) + """
        1 BF2300
        = 1 BF2400
    """ + reads(1, 3) + """
        1 ack 2
        1 BF2300
        = 1 BF2400
    """ + reads(1, 5) + """
        1 ack 3
        = 1 A503800166
        = 1 shut
        life lose
    """,
    # a recovered write begins at the point from which it was recovered
    "a restart before a recovery": SECURED + "        life lose\n" + arrives_in_sync(1) + """
        1 BA09800105810101820101
        = 1 BB098101018201018301FF
        1 0403676869
        1 restart 1 BF2703800101
        = 1 BF2803800101
        1 restart 0 BF2700
        = 1 A503800166
        = 1 shut
        life lose
    """,
    # as many users as there can be: the last one has a password
    "the last of 256 users": "".join(f"        user u{number:03}\n" for number in range(1, 256)) + """
        user u256 7077
    """ + arrives(1, identity="75323535") + """
        2 arrive
        2 A00D80010F81047532353682027077
        = 2 A10381010F
        3 arrive
        3 A00D80010F81047532353682027078
        = 3 A105A003800124
        = 3 shut
        4 arrive
        4 A00980010F810475323537
        = 4 A105A003800124
        = 4 shut
    """,
}
