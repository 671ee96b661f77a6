# Perl's Redis: the same as client.py.
use Redis;
my $client = Redis->new(server => "127.0.0.1:$ARGV[0]", name => "me");
my $item = (split " ", $client->item(1, 2, "Vase", 10, 99999999999999, "*"))[1];
my @bid = (3, $item, 500, "*");
print $client->bid(3, $item, 9, "*"), "\n";
my @kinds;
$client->bid(@bid, sub { push @kinds, (split " ", $_[0])[0] }) for 1 .. 3;
$client->wait_all_responses;
print "@kinds\n";
eval { $client->multi; $client->bid(@bid); $client->exec };
print $@;
eval { $client->discard };
print +(split " ", $client->viewitem($item))[7], "\n";
