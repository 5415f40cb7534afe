// Calls a C function on a painted stack, and tells how deep it went.
use std::arch::asm;

const SIZE: usize = 1 << 16;
// The last 16 bytes are the caller's, for a word that is not handed over in a register.
const DEPTH: usize = SIZE - 16;
const PAINT: u8 = 0xa5;

#[repr(align(16))]
struct Region([u8; SIZE]);

pub struct Painted {
    region: Box<Region>,
}

impl Painted {
    pub fn new() -> Painted {
        Painted { region: Box::new(Region([0; SIZE])) }
    }

    // Calls a function of up to seven words, the last of which goes over the stack. Gives its result registers, and the bytes from the stack pointer
    // before the call down to the lowest changed byte: the return address is among them.
    //
    // Safety: `entry` is a C function that takes these words, and needs far less stack than the region has.
    pub unsafe fn call(&mut self, entry: usize, words: [usize; 7]) -> ([u64; 2], usize) {
        self.region.0.fill(PAINT);
        self.region.0[DEPTH..DEPTH + 8].copy_from_slice(&words[6].to_ne_bytes());
        let top = self.region.0.as_mut_ptr() as usize + DEPTH;
        let (rax, rdx): (u64, u64);
        // r12 and r13 outlive the call: r12 holds the stack pointer of the caller meanwhile
        asm!(
            "xchg rsp, r12",
            "call r13",
            "mov rsp, r12",
            inout("r12") top => _,
            in("r13") entry,
            in("rdi") words[0],
            in("rsi") words[1],
            inout("rdx") words[2] => rdx,
            in("rcx") words[3],
            in("r8") words[4],
            in("r9") words[5],
            out("rax") rax,
            clobber_abi("C"),
        );
        let untouched = self.region.0[..DEPTH].iter().position(|&byte| byte != PAINT).unwrap_or(DEPTH);
        assert!(untouched > 0, "the painted stack is too small");
        ([rax, rdx], DEPTH - untouched)
    }
}
