// Node's redis: the same as client.py.
const { createClient } = require("redis");
(async () => {
  const client = createClient({ url: `redis://127.0.0.1:${process.argv[2]}`, name: "me", database: 0 });
  await client.connect();
  const item = (await client.sendCommand(["ITEM", "1", "2", "Vase", "10", "99999999999999", "*"])).split(" ")[1];
  const bid = ["BID", "3", item, "500", "*"];
  console.log(await client.sendCommand(["BID", "3", item, "9", "*"]));
  console.log((await Promise.all([1, 2, 3].map(() => client.sendCommand(bid)))).map((reply) => reply.split(" ")[0]).join(" "));
  await client.multi().addCommand(bid).exec().catch((error) => console.log(error.message));
  console.log((await client.sendCommand(["VIEWITEM", item])).split(" ")[7]);
  await client.quit();
})();
