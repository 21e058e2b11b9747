"""Scripts of what the simulator found, each made small, or of what was told: none breaks a promise now."""
RING = """
flavour one-way
machines a b c
chance 1
at 0 begin a
at 0 begin b
at 0 begin c
at 4 ask a start g1 kind=good shutdown=300
at 4 ask b start g2 kind=good shutdown=300
at 4 ask c start g3 kind=good shutdown=300
at 5 cut 1000 a>c c>b b>a
end 23
"""
OLDER = """
flavour image
machines a b c
chance 2602621363
at 0.000 begin a
at 0.000 begin c
at 1.388 begin b
at 4.073 ask b start g1 kind=good shutdown=1000
at 5.821 copy-image b
at 6.776 cut 4 b>a a>b c>a a>c
at 6.809 ask b replace g1 kind=good arg=747
at 8.625 kill-agent c 2.996
at 8.923 swap-image b 5 copy
end 11.5
"""
CUT_OFF = """
flavour image
machines a b c
chance 1
at 0 begin a
at 0 begin b
at 0 begin c
at 4 ask b start g1 kind=good shutdown=300
at 6 ask b start g2 kind=good shutdown=300
at 6 ask b start g3 kind=good shutdown=300
at 8 cut 14 a>b b>a c>b b>c
at 9 swap-image b 0.5 none
at 18 ask b start g4 kind=good shutdown=300
end 23
"""
BOTH_SIDES = """
flavour any
machines a b
chance 1
at 0 begin a
at 0 begin b
at 4 ask a start s1 kind=slow shutdown=2000
at 4 ask a start s2 kind=slow shutdown=2000
at 4 ask b start s3 kind=slow shutdown=2000
at 4 ask b start s4 kind=slow shutdown=2000
at 6 cut 8 a>b b>a
at 13.9 kill-child 0
at 14.1 kill-child 1
at 14.3 kill-child 2
end 20
"""
BEHIND_A_BROKER = """
flavour broker
machines a b
chance 1
option knows_peers 0
at 0 begin a
at 0 begin b
at 4 ask a start g1 kind=good shutdown=300
at 4 ask a start g2 kind=good shutdown=300
at 6 cut 8 a>b b>a
at 13 lose-power b 4
end 23
"""
HELD_AGAIN = """
flavour slow
machines a b c d
chance 489795286
option every 0.9
at 0.000 begin c
at 0.100 begin b
at 0.741 begin a
at 1.141 begin d
at 3.620 ask d start i3 kind=ignore shutdown=1000
at 3.650 ask d start g5 kind=good shutdown=1000
at 3.753 ask c start g1 kind=good shutdown=300
at 3.805 ask c start g4 kind=good shutdown=300
at 4.345 ask d start i2 kind=ignore shutdown=300
at 9.492 hold-node b 15
at 10.048 ask b start g8 kind=good shutdown=2000
at 12.292 hold-node b 4
at 12.939 slow-node a 4 1.5
at 12.982 ask a start g6 kind=good shutdown=2000
at 13.765 ask d start g7 kind=good shutdown=1000
end 23.5
"""
SIX_DIRECTIONS = """
flavour one-way
machines a b c d
chance 1590835581
option every 0.9
at 0.000 begin b
at 0.186 begin c
at 0.570 begin d
at 1.036 begin a
at 3.695 ask c start g1 kind=good shutdown=1000
at 3.812 ask a start g5 kind=good shutdown=2000
at 4.165 ask a start i3 kind=ignore shutdown=2000
at 4.297 ask d start g2 kind=good shutdown=300
at 4.382 ask a start g4 kind=good shutdown=2000
at 5.500 cut 1000 a>d b>a c>b a>b d>a d>c
at 6.500 ask b start g6 kind=good shutdown=300
end 23.5
"""
UNHEARD = """
flavour image
machines a b
chance 1
option every 0.9
at 0 begin a
at 0 begin b
at 5 copy-image a
at 8 ask a start g5 kind=good shutdown=1000
at 12 swap-image a 1 copy
at 13.12 cut 8 a>b
at 17.5 ask a start g6 kind=good shutdown=300
end 24
"""
CUT_OFF_AT_ITS_BEGIN = """
flavour image
machines a b
chance 1
option every 0.9
at 0 begin a
at 0 begin b
at 5 copy-image a
at 8 ask a start g5 kind=good shutdown=1000
at 12 swap-image a 1 copy
at 13.16 cut 8 a>b b>a
end 24
"""
NAMED_BY_TWO = """
flavour seeds
machines a b c
chance 1561381647
at 0 names a
at 0 names b a
at 0 names c a
at 0 begin a
at 0 begin b
at 0 begin c
end 8
"""
SAID_NOTHING = """
flavour any
machines a b c
chance 1821208801
at 0.000 begin b
at 0.465 begin a
at 0.725 begin c
at 3.610 ask b start i3 kind=ignore shutdown=300
at 8.592 fill-disk c 8
at 12.387 kill-node c
end 17.5
"""
TOOK_THE_OTHER_OUT = """
flavour seeds
machines a b
chance 3090975024
at 0.000 names a
at 0.000 begin b
at 0.903 begin a
at 4.349 ask b start g4 kind=good shutdown=300
at 8.704 kill-agent b 3.931
at 11.217 cut 4 a>b b>a
at 13.920 kill-agent a 3.442
end 23.5
"""
TAKEN_OUT_MEANWHILE = """
flavour broker
machines a b c
chance 3890331193
option knows_peers 0
at 0.725 begin b
at 1.117 begin c
at 1.871 begin a
at 3.431 ask a start i2 kind=ignore shutdown=1000
at 3.518 ask a start g5 kind=good shutdown=300
at 3.591 ask c start g4 kind=good shutdown=1000
at 3.691 ask a start g1 kind=good shutdown=300
at 3.966 ask b start i3 kind=ignore shutdown=300
at 4.353 ask c start g6 kind=good shutdown=2000
at 6.180 cut 4 a>c b>c c>a c>b
at 6.306 kill-node a
at 6.510 ask c delete g1
at 8.819 stop-agent b 4
at 9.477 lose-power a 6.445
at 10.326 ask a delete g1
at 10.880 ask c replace i3 kind=good arg=945
at 10.972 ask a replace i2 kind=good arg=802
at 11.030 cut 4 a>b a>c b>a c>a
end 11.5
"""
STARTED_BEHIND_A_JOIN = """
flavour slow
machines a b c
chance 44110086
option every 0.9
at 0.000 begin a
at 0.000 begin c
at 1.777 begin b
at 3.552 ask a start g2 kind=good shutdown=1000
end 23.5
"""
DEAD_BESIDE_AN_UPGRADE = """
flavour upgrade
machines a b c
chance 1
at 0 begin a
at 0 begin b
at 0 begin c
at 4 ask a start g1 kind=good shutdown=300
at 4 ask b start g2 kind=good shutdown=300
at 4 ask c start g3 kind=good shutdown=300
at 4 ask c start g4 kind=good shutdown=300
at 4 ask c start g5 kind=good shutdown=300
at 10 lose-power c 1000
at 25 upgrade-agent a 0.5
end 45
"""
LOST_AND_UPGRADED = """
flavour any
machines a b c
chance 1
at 0 begin a
at 0 begin b
at 0 begin c
at 4 ask a start g1 kind=good shutdown=300
at 4 ask b start g2 kind=good shutdown=300
at 4 ask c start g3 kind=good shutdown=300
at 5 kill-agent a 0.5
at 8 kill-agent a 0.5
at 11 swap-image a 0.5 none
at 20 upgrade-agent a 0.5
end 25
"""
LOST_ONCE = """
flavour cut
machines a b c
chance 1
at 0 begin a
at 0 begin b
at 0 begin c
at 4 ask a start g1 kind=good shutdown=300
at 4 ask b start g2 kind=good shutdown=300
at 4 ask c start g3 kind=good shutdown=300
at 5 kill-agent a 0.5
at 8 kill-agent a 0.5
at 11 swap-image a 0.5 none
at 20 kill-agent a 0.5
at 30 kill-agent a 0.5
at 40 kill-agent a 0.5
at 50 lose-power c 1000
at 60 kill-agent a 0.5
end 110
"""
FOUND = {  # as the simulator made them small, or as they were told
    "in a ring of lines in one direction each child runs once": RING,
    "an older image waits for all that those know to which there is no link yet": OLDER,
    "a machine that lost its image and is cut off begins nothing before it has heard the others": CUT_OFF,
    "what both sides of a partition ran begins on neither beside the other's run that ends yet": BOTH_SIDES,
    "a node that was killed since it was held can't be held again before it has begun": HELD_AGAIN,
    "where six directions of four machines are cut at once no child begins beside its run": SIX_DIRECTIONS,
    "an older image isn't gone on with beside a machine that is heard, and doesn't hear": UNHEARD,
    "a machine that is heard for a moment, and may be dead then, is waited for no longer": CUT_OFF_AT_ITS_BEGIN,
    "two machines that name the same third one alone, and begin at once, become members": NAMED_BY_TWO,
    "a machine whose node was away for long asks before it begins again what it ran": SAID_NOTHING,
    "a machine that names nobody and took the other one out waits for it when it comes back": TOOK_THE_OTHER_OUT,
    "a machine that comes back waits for one that was taken out meanwhile": TAKEN_OUT_MEANWHILE,
    "a child that is started right behind a join begins at its place": STARTED_BEHIND_A_JOIN,
    "behind a broker a machine that took all others out waits for those that it may meet when it comes back": BEHIND_A_BROKER,
    "an upgrade beside a machine that has died ends no child of the living": DEAD_BESIDE_AN_UPGRADE,
    "a machine that lost its image goes on as it was when its agent is upgraded": LOST_AND_UPGRADED,
    "an image that was lost once is taken for the newest at later begins": LOST_ONCE,
}
