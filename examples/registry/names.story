# Two owners claim one name at the same time, at two sites.
window 4
replicas 2
settings

begin 1 claim name=ada owner=7 as here
begin 2 claim name=ada owner=8 as there
exec here
exec there
order here
order there
deliver 1 2
deliver 2 2

# the one that was refused asks again, and is told that the name is taken
begin 2 claim name=ada owner=8 as again
exec again
order again

# other names don't stand in each other's way, though they are claimed at the same time
begin 1 claim name=grace owner=7 as one
begin 2 claim name=edith owner=8 as two
exec one
exec two
order one
order two
deliver 1 2
deliver 2 2

# page by page: the last key of the first page, and none behind it
begin 2 page from=0 as first
exec first
order first
rows 2

# a name that isn't one's own stays
begin 2 give_up name=ada owner=8 as other
exec other
order other
begin 1 give_up name=ada owner=7 as own
exec own
order own
deliver 1 1
deliver 2 1
rows 1
