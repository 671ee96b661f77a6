# Ruby's redis: the same as client.py.
require "redis"
client = Redis.new(port: ARGV[0].to_i, id: "me")
item = client.call("ITEM", 1, 2, "Vase", 10, 99999999999999, "*").split[1]
bid = ["BID", 3, item, 500, "*"]
puts client.call("BID", 3, item, 9, "*")
puts client.pipelined { |pipeline| 3.times { pipeline.call(*bid) } }.map { |reply| reply.split[0] }.join(" ")
begin
  client.multi { |transaction| transaction.call(*bid) }
rescue Redis::CommandError => error
  puts error.message
end
puts client.call("VIEWITEM", item).split[7]
