// an order is served until it is paid: while it is served, the shop serves payments
let shop = active([
  paid = 0;
  run(self) = repeat(serve(order)),
  order(self, price) =
    if (self.paid < price) { serve(pay); self.order(price) }
    else { let change = self.paid - price in self.paid := 0; print(change) },
  pay(self, amount) = self.paid := self.paid + amount; echo("paid")
], run) in
let first = shop.order(10) in
let second = shop.order(5) in
shop.pay(6); shop.pay(6); shop.pay(5);
print(first + second)
