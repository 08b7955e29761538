import json

import core

STOCK = '{"tea": [250, 40], "cup": [900, 3]}'
ORDERS = ['{"tea": 2, "cup": 1}', '{"cup": 3}']

shop = core.Shop({name: core.Item(*numbers) for name, numbers in json.loads(STOCK).items()})
for order in ORDERS:
    cost = core.sell(shop, json.loads(order))
    if isinstance(cost, core.Refused):
        print(f"{cost.name}: {cost.reason}")
    else:
        print(f"{cost / 100:.2f}")
