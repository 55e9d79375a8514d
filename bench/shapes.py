"""The shapes of what a stranger may send, by command: a good text with one place, `◊`, where as many pieces stand as fit a size.

Pieces are given as `FRONT«PIECE»END`: between a front and an end stands one piece again and again, in which `@` is the number of each, of
seven digits. What comes of them may be refused: that has to be found as fast.

    bench/shapes.py       prints each shape in small
"""
import collect

FIRST_NUMBER = 1_000_001

WHITE = ["« »", "«\t»", "«\r»", "«\n»"]

# In front of and behind the root of a document.
OUTSIDE = WHITE + ["« \t\r\n»", "«<!---->»", "<!--«x»-->", "<!--«- »-->", "<!--«x»", "«x»", "«]»", "«<»", "«&»", "«<x/>»"]

# In front of a document alone.
DECLARATIONS = [
    "<?xml« » version='1.0'?>",
    "<?xml version« »='1.0'?>",
    "<?xml version=« »'1.0'?>",
    "<?xml version='1.0'« »?>",
    "<?xml version='«1»'?>",
    "<?xml version='1.0'« »encoding='x'?>",
    "<?xml version='1.0' encoding='«x»'?>",
    "<?xml version='1.0' encoding='x' standalone=« »'yes'?>",
    "<?x «x»?>",
    "<!DOCTYPE «x»>",
]

# Among the children of an element: texts, and what is no element.
TEXTS = WHITE + [
    "« \t\r\n»",
    "«x»",
    "«\u00e9»",
    "«]»",
    "«]]»x",
    "«]x»",
    "«]]>»",
    "«>»",
    "«&amp;»",
    "«&#65;»",
    "&#«0»65;",
    "&#x«0»41;",
    "&#«1»;",
    "&«x»;",
    "«<![CDATA[]]>»",
    "«<![CDATA[x]]>»",
    "<![CDATA[«x»]]>",
    "<![CDATA[«]»]]>",
    "<![CDATA[«]]»x]]>",
    "<![CDATA[« »]]>",
    "<![CDATA[«x»",
    "«<!---->»",
    "«x<!---->»",
    "<!--«x»-->",
    "<!--«- »-->",
    "<!--« »-->",
    "<!--«x»",
]

# Elements: children, depth, names, attributes, declarations, values.
ELEMENTS = [
    "«<x/>»",
    "«<x></x>»",
    "«<x>a</x>»",
    "« <x/>»",
    "«<x@/>»",
    f"«{'<x>' * 40 + '</x>' * 40}»",
    "«<x>»",
    "«</x>»",
    "<«x»/>",
    "<«x»></x>",
    "<x></«x»>",
    "<«x»:y/>",
    "<x:«y»/>",
    "<x«:»/>",
    "<x« »/>",
    "<x«\t»/>",
    "<x«\n»/>",
    "<x« »></x>",
    "<x></x« »>",
    "<x« »a=''/>",
    "<x a« »=''/>",
    "<x a=« »''/>",
    "<x a=''« »/>",
    "<x« a@=''»/>",
    "<x« a=''»/>",
    "<x «a»=''/>",
    "<x a='«v»'/>",
    "<x a='«v»",
    "<x a='« »'/>",
    "<x a='«\t»'/>",
    "<x a='«\n»'/>",
    "<x a='«]»'/>",
    "<x a='«&lt;»'/>",
    "<x a='&#«0»65;'/>",
    "<x xmlns='«n»'/>",
    "<x xmlns:p='«n»' p:a=''/>",
    "<x xmlns:«p»='n'/>",
    "<x« xmlns:p@='n'»/>",
    "<x« xmlns:p@='n@' p@:a=''»/>",
    "«<x xmlns='n@'/>»",
    "«<p@:x xmlns:p@='n@'/>»",
]

# Where a number or a duration is read.
NUMBERS = ["«0»", "«1»", "« »", "«&#48;»", "-«1»", "1«.0»"]

# The text of a Select, as it stands in a document.
PATHS = [
    "« »*",
    "*« »",
    "«\t»*",
    "*[« »a]",
    "*[a« »]",
    "*[a« »=1]",
    "*[a=« »1]",
    "*[a=1« or a=1»]",
    "*[a=1« and a=1»]",
    "*[a=1« or a=1 and a=2»]",
    "*[a=1 or« »a=2]",
    "*[a='«x»']",
    "*['«x»'=a]",
    "*[a='«x»",
    "*[«x»=1]",
    "*[@«x»=1]",
    "«x»",
    "«*»",
    "x«/x»",
    "x« / x»",
    "*[x«/x»=1]",
    "*«[a]»",
    "*«[1]»",
    "*«[position()=1]»",
    "*[«0»1]",
    "*[a=«0»1]",
    "*[a=«1»]",
    "*[a=0x«0»1]",
    "*[a=0x«f»]",
    "*[a=1«.»]",
    "*[«(»",
    "*«[»",
    "*[a«)»",
    "*[«(a) or »a]",
    f"*[{'(' * 31}a« or a»{')' * 31}]",
    "*[band(a,«0»1)]",
    "*[band(« »a,1)]",
    "*[band(a,1)« or band(a,1)»]",
    "*[position(« »)=1]",
    "«child::»x",
    "child« »::x",
    "*[« child::a or»a]",
    "*[a>='2024-01-01T00:00:00.«0»Z']",
    "«|»",
    "«!»",
    "«/»",
]

# The elements of a QueryList.
QUERIES = [
    "«<Query Path='A'><Select>*</Select></Query>»",
    "«<Query Path='c@'><Select>*</Select></Query>»",
    "«<Query Path='A'><Select>*</Select><Suppress>*</Suppress></Query>»",
    "<Query Path='A'>«<Select>*</Select>»</Query>",
    "<Query Path='A'>«<Select Path='c@'>*</Select>»</Query>",
    "<Query Path='A'>«<Select>*</Select><Suppress>*</Suppress>»</Query>",
    "<Query Path='A'><Select>*</Select>«<Suppress>*[a=1]</Suppress>»</Query>",
    "<Query Path='«x»'><Select>*</Select></Query>",
    "<Query Path='« »A'><Select>*</Select></Query>",
    "«<Query/>»",
    "«<Select/>»",
]

SUBSCRIPTION = (
    "<Subscription xmlns='http://schemas.microsoft.com/2006/03/windows/events/subscription'><SubscriptionId>base</SubscriptionId>"
    "<SubscriptionType>SourceInitiated</SubscriptionType><Enabled>true</Enabled><Delivery Mode='Push'><Batching><MaxItems>50</MaxItems></Batching>"
    "<PushSettings><Heartbeat Interval='60000'/></PushSettings></Delivery><Expires>PT2H</Expires><Query><QueryList><Query Path='A'><Select>*</Select></Query>"
    "</QueryList></Query><MaxEnvelopeSize>512000</MaxEnvelopeSize><Version>7</Version></Subscription>"
)
BY_COLLECTOR = SUBSCRIPTION.replace("SourceInitiated", "CollectorInitiated").replace("</Subscription>", "<EventSources>◊</EventSources></Subscription>")
SOURCES = [
    "«<EventSource><Address>dc1.example.org</Address></EventSource>»",
    "«<EventSource><Address>dc@.example.org</Address></EventSource>»",
    "<EventSource><Address>«x»</Address></EventSource>",
    "<EventSource><Address>« »dc1</Address></EventSource>",
    "<EventSource><Address>dc1:«0»1</Address></EventSource>",
    "<EventSource>«<Address>dc1</Address>»</EventSource>",
    "«<EventSource/>»",
]

LIST = "<QueryList><Query Path='A'><Select>*</Select></Query></QueryList>"
EVENT = (
    "<Event xmlns='http://schemas.microsoft.com/win/2004/08/events/event'><System><EventID>1</EventID><EventRecordID>7</EventRecordID>"
    "<Channel>A</Channel></System><EventData><Data>a</Data></EventData></Event>"
)

ENVELOPE = (
    f"<s:Envelope xmlns:s='{collect.SOAP}' xmlns:a='{collect.ADDRESSING}' xmlns:w='{collect.MANAGEMENT}' xmlns:u='urn:wef:profile'><s:Header>"
    f"<a:Action s:mustUnderstand='true'>{collect.ACTIONS}/Events</a:Action><a:MessageID>uuid:0A0B0C0D-0000-0000-0000-000000000001</a:MessageID>"
    "<w:Bookmark><BookmarkList><Bookmark Channel='Security' RecordId='9000000'/></BookmarkList></w:Bookmark><w:AckRequested/></s:Header><s:Body>"
    "<w:Events><w:Event Action='e'>TEXT</w:Event></w:Events></s:Body></s:Envelope>"
)
DELIVERED = EVENT.replace(">A<", ">Security<")
AS_TEXT = ENVELOPE.replace("TEXT", f"<![CDATA[{DELIVERED}]]>")
AS_ESCAPED = ENVELOPE.replace("TEXT", DELIVERED.replace("<", "&lt;"))
AS_ELEMENTS = ENVELOPE.replace("TEXT", DELIVERED)
HEADERS = [
    "«<a:To>x</a:To>»",
    "«<a:Action>x</a:Action>»",
    "<a:To>«x»</a:To>",
    "<a:To>« »x</a:To>",
    "<a:ReplyTo>«<a:Address>x</a:Address>»</a:ReplyTo>",
    "<a:RelatesTo>«x»</a:RelatesTo>",
    "«<x/>»",
    "«<x@/>»",
    "«<x s:mustUnderstand='false'/>»",
    "«<x s:mustUnderstand='true'/>»",
    "<x« a@=''» s:mustUnderstand='true'/>",
    "«<a:x/>»",
    "«<p:x xmlns:p='http://schemas.microsoft.com/wbem/wsman/1/wsman.xsd'/>»",
]
ENTRIES = [
    "«<Bookmark Channel='Security' RecordId='1'/>»",
    "«<Bookmark Channel='c@' RecordId='@'/>»",
    "«<Bookmark/>»",
    "«<Other/>»",
    "<Bookmark Channel='«x»' RecordId='1'/>",
    "<Bookmark Channel='« »c' RecordId='1'/>",
    "<Bookmark Channel='c' RecordId='«0»1'/>",
    "<Bookmark Channel='c' RecordId='« »1'/>",
    "<Bookmark« a@=''» Channel='c' RecordId='1'/>",
]
ITEMS = [
    f"«<w:Event Action='e'><![CDATA[{DELIVERED.replace('>7<', '>@<')}]]></w:Event>»",
    f"«<w:Event Action='e'>{DELIVERED.replace('>7<', '>@<')}</w:Event>»",
    f"«<w:Event Action='e'>{DELIVERED.replace('>7<', '>@<').replace('<', '&lt;')}</w:Event>»",
    "«<w:Event/>»",
    "«<w:DroppedEvents u:Channel='Security' u:First='@' u:Last='@'>1</w:DroppedEvents>»",
    "«<w:DroppedEvents u:Channel='c@' u:First='@' u:Last='@'>1</w:DroppedEvents>»",
    "«<w:DroppedEvents>1</w:DroppedEvents>»",
    "<w:DroppedEvents>«0»1</w:DroppedEvents>",
    "<w:DroppedEvents>« »1</w:DroppedEvents>",
    "<w:DroppedEvents u:Channel='Security' u:First='«0»1' u:Last='1'>1</w:DroppedEvents>",
    "<w:DroppedEvents« u:a@=''»>1</w:DroppedEvents>",
    "«<w:Other/>»",
]

# What a source hears: MESSAGE stands for the id of what it sent.
OFFER = (
    "<m:Subscription><m:Version>v</m:Version><s:Envelope><s:Header><a:Action>http://schemas.xmlsoap.org/ws/2004/08/eventing/Subscribe</a:Action>"
    "<a:MessageID>uuid:00000000-0000-0001-0000-000000000002</a:MessageID></s:Header><s:Body><e:Subscribe>"
    f"<e:Delivery Mode='{collect.ACTIONS}/Events'><w:Heartbeats>PT900.000S</w:Heartbeats><e:NotifyTo><a:Address>http://collector:5985/wsman/subscriptions/base/pc1</a:Address>"
    "</e:NotifyTo><w:MaxElements>20</w:MaxElements><w:MaxEnvelopeSize>512000</w:MaxEnvelopeSize></e:Delivery>"
    "<w:Filter Dialect='http://schemas.microsoft.com/win/2004/08/events/eventquery'><QueryList><Query Path='A'><Select>*</Select></Query></QueryList></w:Filter>"
    f"<w:Bookmark>{collect.ACTIONS}/bookmark/earliest</w:Bookmark><w:SendBookmarks/></e:Subscribe></s:Body></s:Envelope></m:Subscription>"
)
SPACES = (
    f"xmlns:s='{collect.SOAP}' xmlns:a='{collect.ADDRESSING}' xmlns:w='{collect.MANAGEMENT}' xmlns:e='http://schemas.xmlsoap.org/ws/2004/08/eventing'"
    " xmlns:n='http://schemas.xmlsoap.org/ws/2004/09/enumeration' xmlns:m='http://schemas.microsoft.com/wbem/wsman/1/subscription'"
)
OFFERS = (
    f"<s:Envelope {SPACES}><s:Header><a:Action>http://schemas.xmlsoap.org/ws/2004/09/enumeration/EnumerateResponse</a:Action>"
    "<a:MessageID>uuid:00000000-0000-0001-0000-000000000001</a:MessageID><a:RelatesTo>MESSAGE</a:RelatesTo></s:Header><s:Body><n:EnumerateResponse>"
    f"<n:EnumerationContext/><w:Items>{OFFER}</w:Items><w:EndOfSequence/></n:EnumerateResponse></s:Body></s:Envelope>"
)
ACK = (
    f"<s:Envelope {SPACES}><s:Header><a:Action>{collect.ACTIONS}/Ack</a:Action><a:MessageID>uuid:00000000-0000-0001-0000-000000000003</a:MessageID>"
    "<a:RelatesTo>MESSAGE</a:RelatesTo></s:Header><s:Body></s:Body></s:Envelope>"
)

HEAD = "POST /wsman/subscriptions/base/pc1 HTTP/1.1\r\nHost: localhost\r\nContent-Type: application/soap+xml\r\n"
RESPONSE_HEAD = "HTTP/1.1 200 OK\r\nContent-Type: application/soap+xml\r\n"
FIELDS = [
    "«X@: y\r\n»",
    "«X: y\r\n»",
    "X: «y»\r\n",
    "X:« »y\r\n",
    "X:«\t»y\r\n",
    "X: y« »\r\n",
    "«X»: y\r\n",
    "Connection: «close,»\r\n",
    "Connection: «,»\r\n",
    "Content-Length: «0»5\r\n",
    "Content-Length: «1»\r\n",
    "«Content-Length: 5\r\n»",
    "Content-Type: application/soap+xml«;a=b»\r\n",
    "Content-Type: application/soap+xml;a=\"«x»\"\r\n",
    "X: «y»",
    "«\r»",
    "«\n»",
]
CHUNKS = [
    "«1\r\nx\r\n»0\r\n\r\n",
    "«100\r\n" + "x" * 256 + "\r\n»0\r\n\r\n",
    "«1;a\r\nx\r\n»0\r\n\r\n",
    "1;«a»\r\nx\r\n0\r\n\r\n",
    "1« »\r\nx\r\n0\r\n\r\n",
    "«0»1\r\nx\r\n0\r\n\r\n",
    "«f»\r\n",
    "0\r\n«A: b\r\n»\r\n",
    "0\r\nA: «b»\r\n\r\n",
    "0\r\n«\r»\n\r\n",
    "«\r\n»",
]

# Lines of a schedule.
SUBSCRIBE = "subscribe base 20 512000 900000 all application\n"
LINES = [
    "«\n»",
    "«#\n»",
    "«\r\n»",
    "#«x»\n",
    "« »\n",
    "«x»\n",
    "«x »\n",
    "«show »\n",
    "subscribe« » base 20 512000 900000 all a\n",
    "subscribe base 20 512000 900000 all« a»\n",
    "subscribe base 20 512000 900000 all« c@»\n",
    "subscribe base 20 512000 900000 all a« »\n",
    "subscribe base 20 512000 900000 all «x»\n",
    "subscribe «x» 20 512000 900000 all a\n",
    "subscribe «%20»x 20 512000 900000 all a\n",
    "subscribe base «0»20 512000 900000 all a\n",
    "subscribe base 20 512000 «9» all a\n",
    "subscribe base 20 512000 900000 query« »\n",
    "«subscribe s@ 20 512000 900000 all a\n»",
    "«end base\n»",
    "«source pc@ 1\n»",
    "source pc1 1\nwrite pc1 a 1 4 «x»\n",
    "source pc1 1\nwrite pc1 a 1 4 «%41»\n",
    "source pc1 1\nwrite pc1 a 1 4 «%»\n",
    "source pc1 1\nwrite pc1 a 1 4 «&»\n",
    "source pc1 1\nwrite pc1 a 1 4 « »\n",
    "source pc1 1\nwrite pc1 a «0»1 4 x\n",
    "source pc1 1\nwrite pc1 «a» 1 4 x\n",
    SUBSCRIBE + "batch base pc1« »\n",
    SUBSCRIBE + "batch base pc1« ack»\n",
    SUBSCRIBE + "batch base pc1« e:application:@:a»\n",
    SUBSCRIBE + "batch base pc1« e:c@:@:a»\n",
    SUBSCRIBE + "batch base pc1« d:application:@:@»\n",
    SUBSCRIBE + "batch base pc1« l:1»\n",
    SUBSCRIBE + "batch base pc1« t:application:@»\n",
    SUBSCRIBE + "batch base pc1« t:c@:@»\n",
    SUBSCRIBE + "batch base pc1 e:application:1:«a»\n",
    SUBSCRIBE + "batch base pc1 e:application:1:«:»\n",
    SUBSCRIBE + "batch base pc1 e:application:1:«%41»\n",
    SUBSCRIBE + "batch base pc1 e:application:«1»:a\n",
    SUBSCRIBE + "batch base pc1 e:«a»:1:a\n",
    SUBSCRIBE + "batch base pc1 «:»\n",
    SUBSCRIBE + "«batch base pc@ ack\n»",
    "«show\n",
]


def places(text, marks):
    """The text with a place in front of the first of each of these marks, and behind its end for the mark that is empty."""
    found = []
    for mark in marks:
        at = text.index(mark) if mark else len(text)
        found.append(text[:at] + "◊" + text[at:])
    return found


def filled(text, pieces, size):
    """The text of so many bytes at most, by its place and pieces."""
    front, rest = pieces.split("«")
    piece, _, end = rest.partition("»")
    before, behind = (text.split("◊") if "◊" in text else ("", text))
    before, behind = before + front, end + behind
    room = size - len((before + behind).encode())
    length = len(piece.replace("@", "1234567").encode())
    count = max(room // length, 1)
    if "@" in piece:
        middle = "".join(piece.replace("@", str(FIRST_NUMBER + number)) for number in range(count))
    else:
        middle = piece * count
    return before + middle + behind


def without_lines(pieces):
    """The pieces that may stand in one line."""
    return [one for one in pieces if "\n" not in one]


def in_lines(texts, front):
    """Texts of one line each, behind another line."""
    return [front + text + "\n" for text in texts]


# Where spaces may stand in a document, by what stands behind them.
SUBSCRIPTION_PLACES = [
    " xmlns", "=", "'http", ">", "<SubscriptionId>", "base<", "</SubscriptionId>", "SourceI", "true<", " Mode", "Push", "50<", "60000",
    "'/></Push", "PT2H", "2H", "<QueryList>", "<Query Path", "'><Select", "</Query>", "512000", "7<", "</Subscription>",
]
EVENT_PLACES = [
    " xmlns", "=", "'http", "><System", "<System>", "<EventID>", "1<", "7<", "</EventRecordID>", "A<", "</Channel>", "</System>", "</Data>",
    "</Event>",
]
ENVELOPE_PLACES = [
    " xmlns:s", "=", "<s:Header>", "<a:Action", " s:must", "true", f"{collect.ACTIONS}/Events", "</a:Action>", "uuid:", "</a:MessageID>",
    "<BookmarkList>", "<Bookmark ", " RecordId", "9000000", "</BookmarkList>", "<w:AckRequested", "/></s:Header>", "</s:Header>", "<s:Body>",
    "<w:Events>", "<w:Event ", "<![CDATA[", "]]>", "</w:Event>", "</w:Events>", "</s:Body>", "</s:Envelope>",
]
OFFERS_PLACES = [
    " xmlns:s", "<s:Header>", "http://schemas.xmlsoap.org/ws/2004/09/enumeration/E", "MESSAGE", "</s:Header>", "<s:Body>", "<n:EnumerationContext",
    "<w:Items>", "<m:Subscription>", "v</m:Version>", "<s:Envelope><", "<e:Subscribe>", " Mode", "900.", "http://collector", "/pc1", "20<",
    "512000", "<QueryList>", "*<", "<w:Bookmark>", "</w:Items>", "</s:Body>", "</s:Envelope>",
]
# Where a number or a duration stands.
SUBSCRIPTION_NUMBERS = ["50<", "60000", "2H", "512000"]
EVENT_NUMBERS = ["7<"]
OFFERS_NUMBERS = ["900.", "20<", "512000"]


def table():
    """Rows of a command, texts with a place, and what stands there."""
    rows = [("add", "◊" + SUBSCRIPTION, DECLARATIONS)]
    rows += [("add", text, OUTSIDE) for text in ("◊" + SUBSCRIPTION, SUBSCRIPTION + "◊", "<!---->◊" + SUBSCRIPTION)]
    rows += [("add", text, WHITE) for text in places(SUBSCRIPTION, SUBSCRIPTION_PLACES)]
    rows += [("add", text, TEXTS + ELEMENTS) for text in places(SUBSCRIPTION, ["<SubscriptionType>", "</Subscription>"])]
    rows += [("add", text, TEXTS) for text in places(SUBSCRIPTION, ["base<", "*<"])]
    rows += [("add", text, NUMBERS) for text in places(SUBSCRIPTION, SUBSCRIPTION_NUMBERS)]
    rows += [("add", SUBSCRIPTION.replace("*<", "◊<"), PATHS), ("add", SUBSCRIPTION.replace("<Query Path", "◊<Query Path"), QUERIES), ("add", BY_COLLECTOR, SOURCES)]
    for command, front in (("check", LIST + "\n"), ("write", "")):
        rows += [(command, text, without_lines(OUTSIDE)) for text in in_lines(("◊" + EVENT, EVENT + "◊"), front)]
        rows += [(command, text, without_lines(WHITE)) for text in in_lines(places(EVENT, EVENT_PLACES), front)]
        rows += [(command, text, without_lines(TEXTS + ELEMENTS)) for text in in_lines(places(EVENT, ["<System>", "</System>", "</Data>"]), front)]
        rows += [(command, text, NUMBERS) for text in in_lines(places(EVENT, EVENT_NUMBERS), front)]
    rows += [("check", text + f"\n{EVENT}\n", without_lines(WHITE)) for text in ("◊" + LIST, LIST + "◊", LIST.replace("*", "◊*"))]
    rows += [("check", LIST.replace("*", "◊") + f"\n{EVENT}\n", PATHS), ("check", LIST.replace("<Query ", "◊<Query ") + f"\n{EVENT}\n", QUERIES)]
    rows += [("check", LIST + "\n◊", [f"«{EVENT}\n»"])]
    rows += [("replay", "◊", LINES)]
    rows += [("replay", f"subscribe base 20 512000 900000 query {LIST.replace('*', '◊')}\n", PATHS)]
    rows += [("replay", f"subscribe base 20 512000 900000 query {LIST.replace('<Query ', '◊<Query ')}\n", QUERIES)]
    rows += [("replay", f"subscribe base 20 512000 900000 query {text}\n", without_lines(OUTSIDE)) for text in ("◊" + LIST, LIST + "◊")]
    rows += [("replay", f"source pc1 1\nwritexml pc1 {text}\n", without_lines(OUTSIDE)) for text in ("◊" + EVENT, EVENT + "◊")]
    rows += [("replay", f"source pc1 1\nwritexml pc1 {text}\n", without_lines(TEXTS + ELEMENTS)) for text in places(EVENT, ["</Data>"])]
    rows += [("collect", "◊" + AS_TEXT, DECLARATIONS)]
    rows += [("collect", text, OUTSIDE) for text in ("◊" + AS_TEXT, AS_TEXT + "◊")]
    rows += [("collect", text, WHITE) for text in places(AS_TEXT, ENVELOPE_PLACES)]
    rows += [("collect", text, TEXTS + ELEMENTS) for text in places(AS_TEXT, ["<s:Body>", "<w:Event ", "<![CDATA["])]
    rows += [("collect", text, HEADERS) for text in places(AS_TEXT, ["</s:Header>"])]
    rows += [("collect", text, ENTRIES) for text in places(AS_TEXT, ["</BookmarkList>"])]
    rows += [("collect", text, ITEMS) for text in (AS_TEXT.replace("</w:Events>", "◊</w:Events>"), ENVELOPE.replace("<w:Event Action='e'>TEXT</w:Event>", "◊"))]
    rows += [("collect", text, OUTSIDE) for text in places(AS_TEXT, ["<Event ", "]]>"])]
    rows += [("collect", text, WHITE) for text in places(AS_ESCAPED, ["&lt;Event ", "</w:Event>"])]
    rows += [("collect", text, TEXTS + ELEMENTS) for text in places(AS_ELEMENTS, ["</System>"])]
    rows += [("head", HEAD + "◊Content-Length: 5\r\n\r\nhello", FIELDS), ("head", HEAD + "Transfer-Encoding: chunked\r\n\r\n◊", CHUNKS)]
    rows += [("head", "◊" + HEAD + "Content-Length: 0\r\n\r\n", ["«\r\n»", "« »", "«x»", "«x »", "«" + HEAD + "Content-Length: 5\r\n\r\nhello»"])]
    rows += [("head", HEAD.replace("base", "◊base") + "Content-Length: 0\r\n\r\n", ["«x»", "«%41»", "«%»", "«/»", "«?»", "« »"])]
    rows += [("forward", "◊" + OFFERS, DECLARATIONS)]
    rows += [("forward", text, OUTSIDE) for text in ("◊" + OFFERS, OFFERS + "◊")]
    rows += [("forward", text, WHITE) for text in places(OFFERS, OFFERS_PLACES)]
    rows += [("forward", text, TEXTS + ELEMENTS) for text in places(OFFERS, ["<s:Body>", "<m:Subscription>", "<w:Filter"])]
    rows += [("forward", text, HEADERS) for text in places(OFFERS, ["</s:Header>"])]
    rows += [("forward", text, [f"«{OFFER}»", f"«{OFFER.replace('/base/', '/s@/')}»"]) for text in places(OFFERS, ["</w:Items>"])]
    rows += [("forward", OFFERS.replace("*<", "◊<"), PATHS), ("forward", OFFERS.replace("<Query Path", "◊<Query Path"), QUERIES)]
    rows += [("forward", text, NUMBERS) for text in places(OFFERS, OFFERS_NUMBERS)]
    rows += [("acknowledged", text, OUTSIDE) for text in ("◊" + ACK, ACK + "◊")]
    rows += [("acknowledged", text, TEXTS + ELEMENTS) for text in places(ACK, ["</s:Header>", "</s:Body>"])]
    rows += [("acknowledged", text, HEADERS) for text in places(ACK, ["</s:Header>"])]
    rows += [("response", RESPONSE_HEAD + "◊Content-Length: 5\r\n\r\nhello", FIELDS), ("response", RESPONSE_HEAD + "Transfer-Encoding: chunked\r\n\r\n◊", CHUNKS)]
    rows += [("response", RESPONSE_HEAD.replace("OK", "◊") + "Content-Length: 5\r\n\r\nhello", ["«x»", "« »"])]
    return [(command, text, one) for command, text, pieces in rows for one in pieces]


def title(command, text, pieces):
    """What a row is called: its pieces, and what stands round them."""
    before, _, behind = text.partition("◊")
    return f"{command}: {ascii(before[-20:])[1:-1]} {ascii(pieces[:40].replace('«', '{{').replace('»', '}}'))[1:-1]} {ascii(behind[:20])[1:-1]}"


def main():
    rows = table()
    for command, text, pieces in rows:
        print(title(command, text, pieces), len(filled(text, pieces, 1 << 14).encode()))
    print(len(rows), "shapes")


if __name__ == "__main__":
    main()
