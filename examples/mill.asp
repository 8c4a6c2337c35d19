// a mill grinds four sacks of corn, and before each one it answers who asks how many are ground
let mill = active([
  ground = 0;
  run(self) = self.grind(4); repeat(serve(how_many)),
  grind(self, sacks) =
    if (pending(how_many)) { serve(how_many) } else { self };
    self.ground := self.ground + 1;
    if (sacks == 1) { echo("all ground") } else { self.grind(sacks - 1) },
  how_many(self) = self.ground
], run) in
print(mill.how_many());
print(mill.how_many())
