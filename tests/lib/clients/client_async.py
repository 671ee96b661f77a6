"""The same as client.py, with asyncio."""

import asyncio
import sys

import redis.asyncio as redis


async def main():
    client = redis.Redis(port=int(sys.argv[1]))
    item = (await client.execute_command("ITEM", 1, 2, "Vase", 10, 99999999999999, "*")).decode().split()[1]
    bid = ("BID", 3, item, 500, "*")
    print((await client.execute_command("BID", 3, item, 9, "*")).decode())
    pipeline = client.pipeline(transaction=False)
    for _ in range(3):
        pipeline.execute_command(*bid)
    print(*(reply.decode().split()[0] for reply in await pipeline.execute()))
    try:
        pipeline = client.pipeline()
        pipeline.execute_command(*bid)
        await pipeline.execute()
    except redis.ResponseError as error:
        print(error)
    print((await client.execute_command("VIEWITEM", item)).decode().split()[7])
    await client.close()


asyncio.run(main())
