// each asks the other for what it would answer only after it was answered
let left = active([friend = 0; meet(self, other) = self.friend := other; 0, ask(self) = self.friend.ask() + 1]) in
let right = active([; ask(self) = left.ask() + 1]) in
left.meet(right);
print(left.ask())
