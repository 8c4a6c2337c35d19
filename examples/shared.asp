// one account under two names, a second one that is equal to it, and a group that holds the first again
let account = [balance = 5; pay_in(self, n) = self.balance := self.balance + n] in
let other = [balance = 5; pay_in(self, n) = self.balance := self.balance + n] in
let all = [mine = account, yours = account, theirs = other, both = group(account, 7), me = 0] in
all.me := all
