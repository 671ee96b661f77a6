"""redis-py: a bid that is refused, a pipeline, and a transaction, in which nothing is done."""

import sys

import redis

client = redis.Redis(port=int(sys.argv[1]), client_name="me")
item = client.execute_command("ITEM", 1, 2, "Vase", 10, 99999999999999, "*").decode().split()[1]
bid = ("BID", 3, item, 500, "*")
print(client.execute_command("BID", 3, item, 9, "*").decode())
pipeline = client.pipeline(transaction=False)
for _ in range(3):
    pipeline.execute_command(*bid)
print(*(reply.decode().split()[0] for reply in pipeline.execute()))
try:
    client.pipeline().execute_command(*bid).execute()
except redis.ResponseError as error:
    print(error)
print(client.execute_command("VIEWITEM", item).decode().split()[7])
