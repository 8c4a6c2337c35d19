// one keeps an answer that it has not read, and main ends with the future of what it asked
let maker = active([; make(self, n) = [n = n], never(self) = serve(nothing)]) in
let keeper = active([kept = 0, late = 0; keep(self, a, b) = self.kept := a; self.late := b; [was = a, of = maker]]) in
keeper.keep(maker.make(4), maker.never())
