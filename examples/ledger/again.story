# A caller hears nothing and asks again: a deposit and a transfer are asked for more than once, and each is done once.
window 4
replicas 2
settings

begin 1 open account=1 as first
exec first
order first
begin 1 open account=2 as second
exec second
order second
deliver 1 2
deliver 2 2

# session 7 pays in 100, as its request 1; it hears nothing from site 1, and asks again at site 2
begin 1 deposit account=1 amount=100 day=20 request 7 1 as pay
exec pay
order pay
begin 2 deposit account=1 amount=100 day=20 request 7 1 as pay_again
exec pay_again
order pay_again

# both are ordered, and at both sites alike the second repeats the first
deliver 1 2
deliver 2 2

# so it goes with a transfer of 80, its request 2
begin 1 transfer from=1 to=2 amount=80 day=20 request 7 2 as move
exec move
order move
begin 2 transfer from=1 to=2 amount=80 day=20 request 7 2 as move_again
exec move_again
order move_again
deliver 1 2

# asked once more where that has committed, it finds too little money and cancels, so it isn't ordered: nothing is moved
# twice, but what it is told isn't the answer of request 2
begin 1 transfer from=1 to=2 amount=80 day=20 request 7 2 as late
exec late
order late
deliver 2 2
rows 2
