"""Hints on inlining in sources, and in a module of LLVM."""

from __future__ import annotations

import unittest

from workshop.builds.inlining import hint_for, hinted, hints_in, owner_of

SOURCE = """
#[inline]
pub fn cut(text: &[u8]) -> u8 {
    0
}

impl<T: Fn(u8) -> u8, A: Allocator> Wire<T, A> {
    #[inline(always)]
    pub(crate) fn lose(&mut self)
        ensures { self.new }
    {
        self.n
    }

    fn other(&self) {}
}

impl fmt::Display for Ends {
    #[inline(never)]
    fn fmt(&self) {}
}

#[inline(always)]
fn last() {}
"""
KIT = "# [ read_as = \"b2\" ] impl < 'a , K > Iterator for Span < 'a , K > as SpanIterator {\n# [ inline ] fn next ( & mut self ) ;\n}\n"


class Hints(unittest.TestCase):
    def test_of_sources(self) -> None:
        wanted = {("subnet", "wire::cut"): "inlinehint", ("subnet", "Wire::lose"): "alwaysinline", ("subnet", "EndsDisplay::fmt"): "noinline", ("subnet", "wire::last"): "alwaysinline"}
        self.assertEqual(dict(hints_in(SOURCE, "subnet", "wire")), wanted)
        self.assertEqual(dict(hints_in(KIT, "std_collections", "btree_map::entries")), {("std_collections", "SpanIterator::next"): "inlinehint"})
        self.assertEqual(dict(hints_in("#[inline]\nfn twice() {}", "arpasim", "")), {("arpasim", "twice"): "inlinehint"})

    def test_names_of_blocks(self) -> None:
        rows = [(" Vec < T , A > ", "Vec"), ("<T: Drop> Drop for VecDeque<T> where T: Drop ", "VecDeque"), (" Carrier: Sized ", "Carrier"), (" < C : calls :: Calls > Inspect for plain :: Boxes < C > ", "BoxesInspect")]
        self.assertEqual([owner_of(head) for head, _ in rows], [name for _, name in rows])

    def test_in_a_module(self) -> None:
        hints = dict(hints_in(SOURCE, "subnet", "wire"))
        names = ["subnet::wire::cut", "subnet::parts::Wire::lose", "subnet::wire::EndsDisplay::fmt::<2'u8>", "subnet::lines::cut", "other::wire::cut"]
        self.assertEqual([hint_for(it, hints) for it in names], ["inlinehint", "alwaysinline", "noinline", None, None])
        lines = ['define internal noundef i64 @"subnet::wire::cut"(ptr noundef %a0) #0 {\n', '  call void @"subnet::wire::cut"(ptr %a0) #2\n', 'define void @"subnet::lines::cut"() #0 {\n']
        self.assertEqual([*hinted(lines, hints)], ['define internal noundef i64 @"subnet::wire::cut"(ptr noundef %a0) inlinehint #0 {\n', *lines[1:]])


if __name__ == "__main__":
    unittest.main()
