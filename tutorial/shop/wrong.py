import json

import core

shop = core.Shop({"tea": core.Item(250, 40)})
try:
    core.sell(shop, json.loads('{"tea": "2"}'))
except TypeError as fault:
    print(f"TypeError inside the core: {fault}")
