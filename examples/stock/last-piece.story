# Two sites reserve the last piece: item 5 came in two lots, and one piece of the older one is left.
window 4
replicas 2
settings

begin 1 receive item=5 day=10 pieces=3 as old
exec old
order old
deliver 1 1
begin 1 receive item=5 day=12 pieces=1 as new
exec new
order new
deliver 1 1
begin 1 reserve number=1 item=5 pieces=2 until=20 as two
exec two
order two
deliver 1 1
deliver 2 3

# both sites reserve one piece of the oldest lot that has one, at the same time
begin 1 reserve number=2 item=5 pieces=1 until=20 as here
begin 2 reserve number=3 item=5 pieces=1 until=20 as there
exec here
exec there
order here
order there
deliver 1 2
deliver 2 2

# the second is called again, and gets the piece of the newer lot
begin 2 reserve number=3 item=5 pieces=1 until=20 as again
exec again
order again
deliver 2 1

# and a third finds none
begin 2 reserve number=4 item=5 pieces=1 until=20 as third
exec third
order third

# reservation 1 is picked; reservation 2 is held until day 20, and given back on day 21
begin 2 pick number=1 as picked
exec picked
order picked
deliver 2 1
begin 2 release number=2 day=20 as early
exec early
order early
begin 2 release number=2 day=21 as late
exec late
order late
deliver 2 1
rows 2
