<?php
// phpredis: the same as client.py.
$client = new Redis();
$client->connect("127.0.0.1", (int)$argv[1]);
$client->select(0);
$item = explode(" ", $client->rawCommand("ITEM", 1, 2, "Vase", 10, 99999999999999, "*"))[1];
echo $client->rawCommand("BID", 3, $item, 9, "*"), "\n";
$client->pipeline();
for ($number = 0; $number < 3; $number++) $client->rawCommand("BID", 3, $item, 500, "*");
echo implode(" ", array_map(fn($reply) => explode(" ", $reply)[0], $client->exec())), "\n";
$client->multi();
$client->rawCommand("BID", 3, $item, 500, "*");
$client->exec();
echo $client->getLastError(), "\n";
echo explode(" ", $client->rawCommand("VIEWITEM", $item))[7], "\n";
