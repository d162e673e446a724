# A procedure is added while calls run: the stock began without release, so pieces that were held could only be picked.
window 4
replicas 2
settings without release

begin 1 receive item=5 day=10 pieces=3 as came
exec came
order came
deliver 1 1
begin 1 reserve number=1 item=5 pieces=2 until=20 as two
exec two
order two
deliver 1 1
deliver 2 2

# release is added while site 2 reserves the last piece
begin 2 reserve number=2 item=5 pieces=1 until=20 as last
add release
exec last
order last

# it stands in the order, and no site has taken it yet
begin 1 release number=1 day=0
deliver 1 2

# site 1 has it now, and site 2 doesn't yet
begin 1 release number=1 day=0 as given
begin 2 release number=1 day=0
exec given
order given

# somebody adds it once more: the name is taken, at both sites alike
add release
deliver 1 2
deliver 2 4
rows 2
