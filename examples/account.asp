// an account that refuses to go below zero
let account = [
  balance = 0;
  pay_in(self, amount) = self.balance := self.balance + amount; self.balance,
  pay_out(self, amount) =
    if (self.balance < amount) { echo("refused"); 0 }
    else { self.balance := self.balance - amount; amount }
] in
print(account.pay_in(70));
print(account.pay_out(100));
print(account.pay_out(30));
print(account.balance)
