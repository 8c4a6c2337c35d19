// two customers of one account: who asks first is served first, and the log tells who did
let account = active([
  balance = 50;
  pay_out(self, amount) =
    if (self.balance < amount) { echo("refused"); 0 }
    else { self.balance := self.balance - amount; print(amount) }
]) in
let customer = [; spend(self, amount) = account.pay_out(amount); account.pay_out(amount)] in
let first = active(customer) in
let second = active(customer) in
let a = first.spend(10) in
let b = second.spend(20) in
print(a + b)
