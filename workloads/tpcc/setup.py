"""The setup of TPC-C in the means of the language: keys of several parts in one number, cents for decimals, and hundredths
of a percent for taxes and discounts. The procedure for an order is made for each number of lines, 5 to 15."""

# A district is named by one number, from 0: ten for each warehouse. What belongs to a district is in its partition:
# its customers, orders, order lines and payments have keys that leave its number when they are divided by how many
# districts there are.
TABLES = """
# Taxes are hundredths of a percent, and money is in cents.
table warehouse (tax int, ytd int)
table district (tax int, ytd int, next_order int, next_history int, oldest int) partitions {districts}
table customer (credit text, discount int, balance int, ytd int, payments int, deliveries int, last_order int) partitions {districts}
table history (customer int, amount int) partitions {districts}
table orders (customer int, lines int, carrier int) partitions {districts}
table new_order (customer int) partitions {districts}
table order_line (item int, supply int, quantity int, amount int, delivered int) partitions {districts}
table item (price int, name text) partitions 16
table stock (quantity int, ytd int, orders int, remote int) partitions {warehouses}
table seen (item int) partitions {districts}
"""

# A line is one number: ((item * warehouses) + the warehouse that supplies it, from 0) * 16 + quantity.
NEW_ORDER_HEAD = """
proc new_order_{count}(who int, {parameters})
    reads warehouse[who % {districts} / 10]
    writes customer[who], district[who % {districts}], orders/(who % {districts}), new_order/(who % {districts}), order_line/(who % {districts})
    reads {items}
    writes {stocks}
{{
    let d = who % {districts}
    let w = d / 10
    let w_tax = warehouse[w].tax
    let d_tax = district[d].tax
    let o = district[d].next_order
    district[d].next_order = o + 1
    let discount = customer[who].discount
    customer[who].last_order = o
    insert orders[o * {districts} + d] (who, {count}, 0)
    insert new_order[o * {districts} + d] (who)
    let total = 0
"""

NEW_ORDER_LINE = """
    if not exists(item[l{it} / 16 / {warehouses}]) {{ abort 100 }}
    let price = item[l{it} / 16 / {warehouses}].price
    let n = l{it} % 16
    let there = stock[l{it} / 16].quantity
    if there < n + 10 {{ let there = there + 91 }}
    stock[l{it} / 16].quantity = there - n
    let sold = stock[l{it} / 16].ytd
    stock[l{it} / 16].ytd = sold + n
    let times = stock[l{it} / 16].orders
    stock[l{it} / 16].orders = times + 1
    if l{it} / 16 % {warehouses} != w {{
        let far = stock[l{it} / 16].remote
        stock[l{it} / 16].remote = far + 1
    }}
    let total = total + n * price
    insert order_line[(o * 16 + {it}) * {districts} + d] (l{it} / 16 / {warehouses}, l{it} / 16 % {warehouses}, n, n * price, 0)
"""

NEW_ORDER_END = """
    reply o, total * (10000 - discount) / 10000 * (10000 + w_tax + d_tax) / 10000
}}
"""

OTHERS = """
proc payment(who int, d int, amount int) writes warehouse[d / 10], district[d], customer[who], history/d {{
    let w_ytd = warehouse[d / 10].ytd
    warehouse[d / 10].ytd = w_ytd + amount
    let d_ytd = district[d].ytd
    district[d].ytd = d_ytd + amount
    let balance = customer[who].balance
    customer[who].balance = balance - amount
    let ytd = customer[who].ytd
    customer[who].ytd = ytd + amount
    let payments = customer[who].payments
    customer[who].payments = payments + 1
    let h = district[d].next_history
    district[d].next_history = h + 1
    insert history[h * {districts} + d] (who, amount)
    reply balance - amount
}}

proc order_status(who int) reads customer[who], orders/(who % {districts}), order_line/(who % {districts}) {{
    let d = who % {districts}
    let balance = customer[who].balance
    let o = customer[who].last_order
    reply balance, o
    if 0 < o {{
        let lines = orders[o * {districts} + d].lines
        let carrier = orders[o * {districts} + d].carrier
        reply carrier
        for l in 1..lines {{
            let item = order_line[(o * 16 + l) * {districts} + d].item
            let n = order_line[(o * 16 + l) * {districts} + d].quantity
            let amount = order_line[(o * 16 + l) * {districts} + d].amount
            reply item, n, amount
        }}
    }}
}}

proc delivery(w int, carrier int)
    writes {delivered}
{{
    for of in 0..9 {{
        let d = w * 10 + of
        let o = district[d].oldest
        let next = district[d].next_order
        if o < next {{
            delete new_order[o * {districts} + d]
            district[d].oldest = o + 1
            let who = orders[o * {districts} + d].customer
            let lines = orders[o * {districts} + d].lines
            orders[o * {districts} + d].carrier = carrier
            let total = 0
            for l in 1..lines {{
                let amount = order_line[(o * 16 + l) * {districts} + d].amount
                let total = total + amount
                order_line[(o * 16 + l) * {districts} + d].delivered = 1
            }}
            let balance = customer[who].balance
            customer[who].balance = balance + total
            let deliveries = customer[who].deliveries
            customer[who].deliveries = deliveries + 1
            reply o
        }} else {{
            reply 0
        }}
    }}
}}

# How many items of the last 20 orders are short, each once: those that were seen are rows of a table while it counts.
proc stock_level(d int, least int) reads district[d], orders/d, order_line/d, stock/(d / 10) writes seen/d {{
    let next = district[d].next_order
    let first = next - 20
    if first < 1 {{ let first = 1 }}
    let low = 0
    for o in first..next - 1 {{
        let lines = orders[o * {districts} + d].lines
        for l in 1..lines {{
            let item = order_line[(o * 16 + l) * {districts} + d].item
            let there = stock[item * {warehouses} + d / 10].quantity
            if there < least {{
                if not exists(seen[item * {districts} + d]) {{
                    insert seen[item * {districts} + d] (item)
                    let low = low + 1
                }}
            }}
        }}
    }}
    each key in seen/d {{
        delete seen[key]
    }}
    reply low
}}
"""


def notation(warehouses):
    """The tables and procedures for a number of warehouses, at most 102."""
    sizes = {"warehouses": warehouses, "districts": 10 * warehouses}
    parts = [TABLES.format(**sizes)]
    for count in range(5, 16):
        lines = range(1, count + 1)
        parts.append(
            NEW_ORDER_HEAD.format(
                count=count,
                parameters=", ".join(f"l{it} int" for it in lines),
                items=", ".join(f"item[l{it} / 16 / {warehouses}]" for it in lines),
                stocks=", ".join(f"stock[l{it} / 16]" for it in lines),
                **sizes,
            )
        )
        parts += [NEW_ORDER_LINE.format(it=it, **sizes) for it in lines] + [NEW_ORDER_END.format()]
    of_district = ["district[{0}]", "new_order/({0})", "customer/({0})", "orders/({0})", "order_line/({0})"]
    delivered = ", ".join(one.format(f"w * 10 + {of}") for of in range(10) for one in of_district)
    return "".join(parts) + OTHERS.format(delivered=delivered, **sizes)
