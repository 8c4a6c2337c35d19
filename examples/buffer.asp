// a buffer with two places: while it is full it serves no put, and while it is empty no take
let buffer = active([
  first = 0, second = 0, used = 0;
  run(self) = repeat(self.step()),
  step(self) =
    if (self.used == 0) { serve(put) }
    else { if (self.used == 2) { serve(take) } else { serve(put, take) } },
  put(self, n) =
    echo("put");
    if (self.used == 0) { self.first := n } else { self.second := n };
    self.used := self.used + 1,
  take(self) =
    let n = self.first in
    echo("take");
    self.first := self.second; self.used := self.used - 1; n
], run) in
buffer.put(1); buffer.put(2); buffer.put(3);
print(buffer.take());
print(buffer.take() + buffer.take())
