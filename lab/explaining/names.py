"""Names: data objects (000, Annex B), bits and codes (003, Annex A), outcomes, reasons and codes (01, 02). Tables alone."""

TAGS = {
    "42": "issuer identification", "4F": "AID", "50": "application label", "52": "command to perform", "56": "track 1 data",
    "57": "track 2 equivalent data", "5A": "PAN", "5F20": "cardholder name", "5F24": "expiry date", "5F25": "effective date",
    "5F28": "issuer country", "5F2A": "currency", "5F2D": "language preference", "5F30": "service code", "5F34": "PAN sequence number",
    "5F36": "currency exponent", "61": "application template", "6F": "FCI", "70": "record", "71": "issuer script 1",
    "72": "issuer script 2", "73": "directory discretionary", "77": "format 2", "80": "format 1", "81": "amount, binary", "82": "AIP",
    "83": "command template", "84": "DF name", "86": "issuer script command", "87": "priority", "88": "SFI", "89": "authorisation code",
    "8A": "response code", "8C": "CDOL1", "8D": "CDOL2", "8E": "CVM list", "8F": "CA public key index",
    "90": "issuer public key certificate", "91": "issuer authentication data", "92": "issuer public key remainder",
    "93": "signed static data", "94": "AFL", "95": "TVR", "97": "TDOL", "98": "TC hash value", "99": "PIN data", "9A": "date",
    "9B": "TSI", "9C": "transaction type", "9D": "DDF name", "9F01": "acquirer", "9F02": "amount", "9F03": "other amount",
    "9F04": "other amount, binary", "9F05": "discretionary data", "9F06": "terminal's AID", "9F07": "usage control",
    "9F08": "card's version", "9F09": "terminal's version", "9F0B": "cardholder name, extended", "9F0D": "IAC default",
    "9F0E": "IAC denial", "9F0F": "IAC online", "9F10": "issuer data", "9F11": "code table", "9F12": "preferred name",
    "9F13": "last online ATC", "9F14": "lower offline limit", "9F15": "merchant category", "9F16": "merchant", "9F17": "PIN try counter",
    "9F1A": "country", "9F1B": "floor limit, binary", "9F1C": "terminal identification", "9F1D": "terminal risk management data",
    "9F1E": "serial number", "9F1F": "track 1 discretionary data", "9F20": "track 2 discretionary data", "9F21": "time",
    "9F23": "upper offline limit", "9F26": "cryptogram", "9F27": "CID", "9F33": "terminal capabilities", "9F34": "CVM results",
    "9F35": "terminal type", "9F36": "ATC", "9F37": "unpredictable number", "9F38": "PDOL", "9F39": "entry mode",
    "9F40": "additional capabilities", "9F41": "sequence counter", "9F42": "application currency", "9F4A": "data authentication tags",
    "9F4C": "ICC dynamic number", "9F6B": "track 2 data", "A5": "FCI proprietary", "BF0C": "FCI issuer discretionary",
}
# Tags whose values tell who the cardholder is: never shown in full.
PERSONAL = ("5A", "57", "56", "5F20", "9F0B", "9F1F", "9F20", "9F6B")

# From b8 to b1 of each byte; None where 003 has no meaning.
TVR = (
    ("Data authentication was not performed", "Static data authentication failed", "ICC data missing",
     "Card appears on terminal exception file", "Dynamic data authentication failed", None, None, None),
    ("ICC and terminal have different application versions", "Expired application", "Application not yet effective",
     "Requested service not allowed for card product", "New card", None, None, None),
    ("Cardholder verification was not successful", "Unrecognised CVM", "PIN Try Limit exceeded",
     "PIN entry required and PIN pad not present or not working", "PIN entry required, PIN pad present, but PIN was not entered",
     "Online PIN entered", None, None),
    ("Transaction exceeds floor limit", "Lower consecutive offline limit exceeded", "Upper consecutive offline limit exceeded",
     "Transaction selected randomly for online processing", "Merchant forced transaction online", None, None, None),
    ("Default TDOL used", "Issuer authentication was unsuccessful", "Script processing failed before final GENERATE AC",
     "Script processing failed after final GENERATE AC", None, None, None, None),
)
TSI = (
    ("Data authentication was performed", "Cardholder verification was performed", "Card risk management was performed",
     "Issuer authentication was performed", "Terminal risk management was performed", "Script processing was performed", None, None),
    (None,) * 8,
)
AIP = (
    ("Initiate", "Data authentication is supported", None, "Cardholder verification is supported",
     "Terminal risk management is to be performed", "Issuer authentication is supported", None, None),
    (None,) * 8,
)
BITS = {"95": ("TVR", TVR), "9B": ("TSI", TSI), "82": ("AIP", AIP)}

# 003, Table A-3: what b6 to b1 of a rule's first byte ask for; and Table A-4: when.
METHODS = {0x00: "fail", 0x01: "offline PIN", 0x02: "online PIN", 0x03: "offline PIN and signature", 0x1E: "signature",
           0x1F: "no verification"}
CONDITIONS = {0x00: "always", 0x01: "if cash or cashback", 0x02: "if not cash or cashback", 0x03: "if supported", 0x04: "if not supported",
              0x05: "if support not operative", 0x06: "if under X", 0x07: "if over X", 0x08: "if under Y", 0x09: "if over Y"}
# 02, R-7.
RESULTS = ("failed", "succeeded", "no PIN pad", "no PIN entered", "tries used up")
# 01, "Terminal data".
TYPES = ("offline only", "online only", "both")
# 01, "The commands", and "What the card must answer": by the top two bits of P1 and of 9F27.
CRYPTOGRAMS = {0x00: "AAC", 0x40: "TC", 0x80: "ARQC"}
# 01, "From facts to a decision".
REPLIES = {1: "approve", 2: "decline", 3: "unable to go online"}
OUTCOMES = {1: "approved", 2: "declined", 3: "terminated"}
# 01, "What the card must answer"; 7 by 02, R-8.
REASONS = {
    1: "an answer of fewer than 2 or more than 258 bytes", 2: "a status other than 9000",
    3: "data that is no list of objects, or not the one object that is expected", 4: "a named object twice at its place",
    5: "a named object of wrong length or content", 6: "AFL wrong", 7: "over 500 records", 8: "a mandatory object missing",
    9: "an object list that is malformed or asks for over 252 bytes", 10: "a cryptogram that the request does not allow",
}


def bits_of(tag, value):
    """The bits that are set in a TVR, TSI or AIP: byte, bit and name, from the left."""
    table = BITS[tag][1]
    return [(k, bit, table[k - 1][8 - bit] if k <= len(table) else None)
            for k, byte in enumerate(value, 1) for bit in range(8, 0, -1) if byte >> (bit - 1) & 1]


def bits_in_words(tag, value):
    """The bits that are set, by name, and whether others are."""
    bits = bits_of(tag, value)
    named = [bit_in_words(*bit) for bit in bits if bit[2]]
    return ", ".join(named + ["bits that are RFU"] * (len(named) < len(bits)))


def bit_in_words(byte, bit, name):
    return f"byte {byte} b{bit} '{name}'" if name else f"byte {byte} b{bit} (RFU)"
