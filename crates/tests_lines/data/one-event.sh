# Delivers one event from one process to another, for a subscription that says no more than it has to.
#
#     sh one-event.sh WEF

wef=$1
. ./collecting.sh
port=45985
mkdir one-event one-event/collector one-event/source && cd one-event || exit 2

echo "A collector with one subscription, and a source with one event."
echo '<Subscription xmlns="http://schemas.microsoft.com/2006/03/windows/events/subscription"><SubscriptionId>base</SubscriptionId><SubscriptionType>SourceInitiated</SubscriptionType><Query><QueryList><Query><Select Path="application">*</Select></Query></QueryList></Query></Subscription>' | (cd collector && "$wef" add)
collect 2
echo '<Event xmlns="http://schemas.microsoft.com/win/2004/08/events/event"><System><EventID>1</EventID><Level>4</Level><Channel>application</Channel></System><EventData><Data>a</Data></EventData></Event>' | (cd source && "$wef" write)
(cd source && "$wef" forward "$address" pc1 1)
collected
(cd collector && "$wef" show && "$wef" events base pc1 application && "$wef" status base)
