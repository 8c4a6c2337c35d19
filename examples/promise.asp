// a promise: main hands out a future first, and sets its value later
let promise = active([
  value = 0;
  run(self) = serve(set); repeat(serve(get)),
  set(self, value) = self.value := value; 0,
  get(self) = self.value
], run) in
let reader = active([; read(self, value) = print(value + 1)]) in
let answer = reader.read(promise.get()) in
echo("not set");
promise.set(41);
print(answer)
