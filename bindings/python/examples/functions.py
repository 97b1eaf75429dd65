import sys, dewikura
for row in dewikura.profile(sys.argv[1]).top(10):
    print(f"{row.self_share:7.2%} {row.total_share:7.2%} {row.self:8}  {row.function}")
