//! The numbers of Linux's `perf_event.h`, `hw_breakpoint.h` and `perf_regs.h`.

// Defines constants with one sentence of documentation each: the sentence of their group with their names.
macro_rules! constants {
    ($before:literal, $after:literal; $($name:ident: $number:ty = $value:expr;)+) => {
        $(
            #[doc = concat!($before, stringify!($name), $after)]
            pub const $name: $number = $value;
        )+
    };
}

constants! {
    "A type of event, `", "` of `perf_event.h`.";
    PERF_TYPE_HARDWARE: u32 = 0;
    PERF_TYPE_SOFTWARE: u32 = 1;
    PERF_TYPE_TRACEPOINT: u32 = 2;
    PERF_TYPE_HW_CACHE: u32 = 3;
    PERF_TYPE_RAW: u32 = 4;
    PERF_TYPE_BREAKPOINT: u32 = 5;
}

constants! {
    "An access of a cache event, `", "` of `perf_event.h`.";
    PERF_COUNT_HW_CACHE_OP_READ: u8 = 0;
    PERF_COUNT_HW_CACHE_OP_WRITE: u8 = 1;
    PERF_COUNT_HW_CACHE_OP_PREFETCH: u8 = 2;
}

constants! {
    "A result of a cache event, `", "` of `perf_event.h`.";
    PERF_COUNT_HW_CACHE_RESULT_ACCESS: u8 = 0;
    PERF_COUNT_HW_CACHE_RESULT_MISS: u8 = 1;
}

constants! {
    "A cache, or a hardware event on caches, `", "` of `perf_event.h`.";
    PERF_COUNT_HW_CACHE_REFERENCES: u8 = 2;
    PERF_COUNT_HW_CACHE_MISSES: u8 = 3;
    PERF_COUNT_HW_CACHE_L1D: u8 = 0;
    PERF_COUNT_HW_CACHE_L1I: u8 = 1;
    PERF_COUNT_HW_CACHE_LL: u8 = 2;
    PERF_COUNT_HW_CACHE_DTLB: u8 = 3;
    PERF_COUNT_HW_CACHE_ITLB: u8 = 4;
    PERF_COUNT_HW_CACHE_BPU: u8 = 5;
    PERF_COUNT_HW_CACHE_NODE: u8 = 6;
}

constants! {
    "A hardware event, `", "` of `perf_event.h`.";
    PERF_COUNT_HW_CPU_CYCLES: u8 = 0;
    PERF_COUNT_HW_INSTRUCTIONS: u8 = 1;
    PERF_COUNT_HW_BRANCH_INSTRUCTIONS: u8 = 4;
    PERF_COUNT_HW_BRANCH_MISSES: u8 = 5;
    PERF_COUNT_HW_BUS_CYCLES: u8 = 6;
    PERF_COUNT_HW_STALLED_CYCLES_FRONTEND: u8 = 7;
    PERF_COUNT_HW_STALLED_CYCLES_BACKEND: u8 = 8;
    PERF_COUNT_HW_REF_CPU_CYCLES: u8 = 9;
}

constants! {
    "A software event, `", "` of `perf_event.h`.";
    PERF_COUNT_SW_CPU_CLOCK: u64 = 0;
    PERF_COUNT_SW_TASK_CLOCK: u64 = 1;
    PERF_COUNT_SW_PAGE_FAULTS: u64 = 2;
    PERF_COUNT_SW_CONTEXT_SWITCHES: u64 = 3;
    PERF_COUNT_SW_CPU_MIGRATIONS: u64 = 4;
    PERF_COUNT_SW_PAGE_FAULTS_MIN: u64 = 5;
    PERF_COUNT_SW_PAGE_FAULTS_MAJ: u64 = 6;
    PERF_COUNT_SW_ALIGNMENT_FAULTS: u64 = 7;
    PERF_COUNT_SW_EMULATION_FAULTS: u64 = 8;
    PERF_COUNT_SW_DUMMY: u64 = 9;
    PERF_COUNT_SW_BPF_OUTPUT: u64 = 10;
    PERF_COUNT_SW_CGROUP_SWITCHES: u64 = 11;
}

constants! {
    "Accesses of a breakpoint, `", "` of `hw_breakpoint.h`.";
    HW_BREAKPOINT_EMPTY: u8 = 0;
    HW_BREAKPOINT_R: u8 = 1;
    HW_BREAKPOINT_W: u8 = 2;
    HW_BREAKPOINT_RW: u8 = 3;
    HW_BREAKPOINT_X: u8 = 4;
    HW_BREAKPOINT_INVALID: u8 = 7;
}

constants! {
    "The size of a version of the attribute in bytes, `", "` of `perf_event.h`.";
    PERF_ATTR_SIZE_VER0: u32 = 64;
    PERF_ATTR_SIZE_VER1: u32 = 72;
    PERF_ATTR_SIZE_VER2: u32 = 80;
    PERF_ATTR_SIZE_VER3: u32 = 96;
    PERF_ATTR_SIZE_VER4: u32 = 104;
    PERF_ATTR_SIZE_VER5: u32 = 112;
    PERF_ATTR_SIZE_VER6: u32 = 120;
    PERF_ATTR_SIZE_VER7: u32 = 128;
}

constants! {
    "The bits of a flag in an attribute: `", "`.";
    ATTR_FLAG_BIT_DISABLED: u64 = 1 << 0;
    ATTR_FLAG_BIT_INHERIT: u64 = 1 << 1;
    ATTR_FLAG_BIT_PINNED: u64 = 1 << 2;
    ATTR_FLAG_BIT_EXCLUSIVE: u64 = 1 << 3;
    ATTR_FLAG_BIT_EXCLUDE_USER: u64 = 1 << 4;
    ATTR_FLAG_BIT_EXCLUDE_KERNEL: u64 = 1 << 5;
    ATTR_FLAG_BIT_EXCLUDE_HV: u64 = 1 << 6;
    ATTR_FLAG_BIT_EXCLUDE_IDLE: u64 = 1 << 7;
    ATTR_FLAG_BIT_MMAP: u64 = 1 << 8;
    ATTR_FLAG_BIT_COMM: u64 = 1 << 9;
    ATTR_FLAG_BIT_FREQ: u64 = 1 << 10;
    ATTR_FLAG_BIT_INHERIT_STAT: u64 = 1 << 11;
    ATTR_FLAG_BIT_ENABLE_ON_EXEC: u64 = 1 << 12;
    ATTR_FLAG_BIT_TASK: u64 = 1 << 13;
    ATTR_FLAG_BIT_WATERMARK: u64 = 1 << 14;
    ATTR_FLAG_BITMASK_PRECISE_IP: u64 = 3 << 15;
    ATTR_FLAG_BIT_MMAP_DATA: u64 = 1 << 17;
    ATTR_FLAG_BIT_SAMPLE_ID_ALL: u64 = 1 << 18;
    ATTR_FLAG_BIT_EXCLUDE_HOST: u64 = 1 << 19;
    ATTR_FLAG_BIT_EXCLUDE_GUEST: u64 = 1 << 20;
    ATTR_FLAG_BIT_EXCLUDE_CALLCHAIN_KERNEL: u64 = 1 << 21;
    ATTR_FLAG_BIT_EXCLUDE_CALLCHAIN_USER: u64 = 1 << 22;
    ATTR_FLAG_BIT_MMAP2: u64 = 1 << 23;
    ATTR_FLAG_BIT_COMM_EXEC: u64 = 1 << 24;
    ATTR_FLAG_BIT_USE_CLOCKID: u64 = 1 << 25;
    ATTR_FLAG_BIT_CONTEXT_SWITCH: u64 = 1 << 26;
    ATTR_FLAG_BIT_WRITE_BACKWARD: u64 = 1 << 27;
    ATTR_FLAG_BIT_NAMESPACES: u64 = 1 << 28;
    ATTR_FLAG_BIT_KSYMBOL: u64 = 1 << 29;
    ATTR_FLAG_BIT_BPF_EVENT: u64 = 1 << 30;
    ATTR_FLAG_BIT_AUX_OUTPUT: u64 = 1 << 31;
    ATTR_FLAG_BIT_CGROUP: u64 = 1 << 32;
    ATTR_FLAG_BIT_TEXT_POKE: u64 = 1 << 33;
    ATTR_FLAG_BIT_BUILD_ID: u64 = 1 << 34;
    ATTR_FLAG_BIT_INHERIT_THREAD: u64 = 1 << 35;
    ATTR_FLAG_BIT_REMOVE_ON_EXEC: u64 = 1 << 36;
    ATTR_FLAG_BIT_SIGTRAP: u64 = 1 << 37;
}

constants! {
    "Bits of `misc` in a record header, `", "` of `perf_event.h`.";
    PERF_RECORD_MISC_CPUMODE_MASK: u16 = 7;
    PERF_RECORD_MISC_CPUMODE_UNKNOWN: u16 = 0;
    PERF_RECORD_MISC_KERNEL: u16 = 1;
    PERF_RECORD_MISC_USER: u16 = 2;
    PERF_RECORD_MISC_HYPERVISOR: u16 = 3;
    PERF_RECORD_MISC_GUEST_KERNEL: u16 = 4;
    PERF_RECORD_MISC_GUEST_USER: u16 = 5;
    PERF_RECORD_MISC_PROC_MAP_PARSE_TIMEOUT: u16 = 1 << 12;
    PERF_RECORD_MISC_MMAP_DATA: u16 = 1 << 13;
    PERF_RECORD_MISC_COMM_EXEC: u16 = 1 << 13;
    PERF_RECORD_MISC_FORK_EXEC: u16 = 1 << 13;
    PERF_RECORD_MISC_SWITCH_OUT: u16 = 1 << 13;
    PERF_RECORD_MISC_EXACT_IP: u16 = 1 << 14;
    PERF_RECORD_MISC_SWITCH_OUT_PREEMPT: u16 = 1 << 14;
    PERF_RECORD_MISC_MMAP_BUILD_ID: u16 = 1 << 14;
    PERF_RECORD_MISC_BUILD_ID_SIZE: u16 = 1 << 15;
}

constants! {
    "The first type of record that tools write, `", "` of perf.";
    PERF_RECORD_USER_TYPE_START: u32 = 64;
}

constants! {
    "A type of record, `", "` of `perf_event.h`.";
    PERF_RECORD_MMAP: u32 = 1;
    PERF_RECORD_LOST: u32 = 2;
    PERF_RECORD_COMM: u32 = 3;
    PERF_RECORD_EXIT: u32 = 4;
    PERF_RECORD_THROTTLE: u32 = 5;
    PERF_RECORD_UNTHROTTLE: u32 = 6;
    PERF_RECORD_FORK: u32 = 7;
    PERF_RECORD_READ: u32 = 8;
    PERF_RECORD_SAMPLE: u32 = 9;
    PERF_RECORD_MMAP2: u32 = 10;
    PERF_RECORD_AUX: u32 = 11;
    PERF_RECORD_ITRACE_START: u32 = 12;
    PERF_RECORD_LOST_SAMPLES: u32 = 13;
    PERF_RECORD_SWITCH: u32 = 14;
    PERF_RECORD_SWITCH_CPU_WIDE: u32 = 15;
    PERF_RECORD_NAMESPACES: u32 = 16;
    PERF_RECORD_KSYMBOL: u32 = 17;
    PERF_RECORD_BPF_EVENT: u32 = 18;
    PERF_RECORD_CGROUP: u32 = 19;
    PERF_RECORD_TEXT_POKE: u32 = 20;
    PERF_RECORD_AUX_OUTPUT_HW_ID: u32 = 21;
}

constants! {
    "Branches of a branch stack, `", "` of `perf_event.h`.";
    PERF_SAMPLE_BRANCH_STACK: u64 = 1 << 11;
    PERF_SAMPLE_BRANCH_USER_SHIFT: u32 = 0;
    PERF_SAMPLE_BRANCH_KERNEL_SHIFT: u32 = 1;
    PERF_SAMPLE_BRANCH_HV_SHIFT: u32 = 2;
    PERF_SAMPLE_BRANCH_ANY_SHIFT: u32 = 3;
    PERF_SAMPLE_BRANCH_ANY_CALL_SHIFT: u32 = 4;
    PERF_SAMPLE_BRANCH_ANY_RETURN_SHIFT: u32 = 5;
    PERF_SAMPLE_BRANCH_IND_CALL_SHIFT: u32 = 6;
    PERF_SAMPLE_BRANCH_ABORT_TX_SHIFT: u32 = 7;
    PERF_SAMPLE_BRANCH_IN_TX_SHIFT: u32 = 8;
    PERF_SAMPLE_BRANCH_NO_TX_SHIFT: u32 = 9;
    PERF_SAMPLE_BRANCH_COND_SHIFT: u32 = 10;
    PERF_SAMPLE_BRANCH_CALL_STACK_SHIFT: u32 = 11;
    PERF_SAMPLE_BRANCH_IND_JUMP_SHIFT: u32 = 12;
    PERF_SAMPLE_BRANCH_CALL_SHIFT: u32 = 13;
    PERF_SAMPLE_BRANCH_NO_FLAGS_SHIFT: u32 = 14;
    PERF_SAMPLE_BRANCH_NO_CYCLES_SHIFT: u32 = 15;
    PERF_SAMPLE_BRANCH_TYPE_SAVE_SHIFT: u32 = 16;
    PERF_SAMPLE_BRANCH_HW_INDEX_SHIFT: u32 = 17;
    PERF_SAMPLE_BRANCH_USER: u64 = 1 << 0;
    PERF_SAMPLE_BRANCH_KERNEL: u64 = 1 << 1;
    PERF_SAMPLE_BRANCH_HV: u64 = 1 << 2;
    PERF_SAMPLE_BRANCH_ANY: u64 = 1 << 3;
    PERF_SAMPLE_BRANCH_ANY_CALL: u64 = 1 << 4;
    PERF_SAMPLE_BRANCH_ANY_RETURN: u64 = 1 << 5;
    PERF_SAMPLE_BRANCH_IND_CALL: u64 = 1 << 6;
    PERF_SAMPLE_BRANCH_ABORT_TX: u64 = 1 << 7;
    PERF_SAMPLE_BRANCH_IN_TX: u64 = 1 << 8;
    PERF_SAMPLE_BRANCH_NO_TX: u64 = 1 << 9;
    PERF_SAMPLE_BRANCH_COND: u64 = 1 << 10;
    PERF_SAMPLE_BRANCH_CALL_STACK: u64 = 1 << 11;
    PERF_SAMPLE_BRANCH_IND_JUMP: u64 = 1 << 12;
    PERF_SAMPLE_BRANCH_CALL: u64 = 1 << 13;
    PERF_SAMPLE_BRANCH_NO_FLAGS: u64 = 1 << 14;
    PERF_SAMPLE_BRANCH_NO_CYCLES: u64 = 1 << 15;
    PERF_SAMPLE_BRANCH_TYPE_SAVE: u64 = 1 << 16;
    PERF_SAMPLE_BRANCH_HW_INDEX: u64 = 1 << 17;
}

constants! {
    "The width of the registers in a sample, `", "` of `perf_event.h`.";
    PERF_SAMPLE_REGS_ABI_32: u64 = 1;
    PERF_SAMPLE_REGS_ABI_64: u64 = 2;
}

constants! {
    "A field of samples, `", "` of `perf_event.h`.";
    PERF_SAMPLE_IP: u64 = 1 << 0;
    PERF_SAMPLE_TID: u64 = 1 << 1;
    PERF_SAMPLE_TIME: u64 = 1 << 2;
    PERF_SAMPLE_ADDR: u64 = 1 << 3;
    PERF_SAMPLE_READ: u64 = 1 << 4;
    PERF_SAMPLE_CALLCHAIN: u64 = 1 << 5;
    PERF_SAMPLE_ID: u64 = 1 << 6;
    PERF_SAMPLE_CPU: u64 = 1 << 7;
    PERF_SAMPLE_PERIOD: u64 = 1 << 8;
    PERF_SAMPLE_STREAM_ID: u64 = 1 << 9;
    PERF_SAMPLE_RAW: u64 = 1 << 10;
    PERF_SAMPLE_REGS_USER: u64 = 1 << 12;
    PERF_SAMPLE_STACK_USER: u64 = 1 << 13;
    PERF_SAMPLE_WEIGHT: u64 = 1 << 14;
    PERF_SAMPLE_DATA_SRC: u64 = 1 << 15;
    PERF_SAMPLE_IDENTIFIER: u64 = 1 << 16;
    PERF_SAMPLE_TRANSACTION: u64 = 1 << 17;
    PERF_SAMPLE_REGS_INTR: u64 = 1 << 18;
    PERF_SAMPLE_PHYS_ADDR: u64 = 1 << 19;
    PERF_SAMPLE_AUX: u64 = 1 << 20;
    PERF_SAMPLE_CGROUP: u64 = 1 << 21;
    PERF_SAMPLE_DATA_PAGE_SIZE: u64 = 1 << 22;
    PERF_SAMPLE_CODE_PAGE_SIZE: u64 = 1 << 23;
    PERF_SAMPLE_WEIGHT_STRUCT: u64 = 1 << 24;
}

constants! {
    "A register of x86 in a mask, `", "` of `perf_regs.h`.";
    PERF_REG_X86_AX: u64 = 0;
    PERF_REG_X86_BX: u64 = 1;
    PERF_REG_X86_CX: u64 = 2;
    PERF_REG_X86_DX: u64 = 3;
    PERF_REG_X86_SI: u64 = 4;
    PERF_REG_X86_DI: u64 = 5;
    PERF_REG_X86_BP: u64 = 6;
    PERF_REG_X86_SP: u64 = 7;
    PERF_REG_X86_IP: u64 = 8;
    PERF_REG_X86_FLAGS: u64 = 9;
    PERF_REG_X86_CS: u64 = 10;
    PERF_REG_X86_SS: u64 = 11;
    PERF_REG_X86_DS: u64 = 12;
    PERF_REG_X86_ES: u64 = 13;
    PERF_REG_X86_FS: u64 = 14;
    PERF_REG_X86_GS: u64 = 15;
    PERF_REG_X86_R8: u64 = 16;
    PERF_REG_X86_R9: u64 = 17;
    PERF_REG_X86_R10: u64 = 18;
    PERF_REG_X86_R11: u64 = 19;
    PERF_REG_X86_R12: u64 = 20;
    PERF_REG_X86_R13: u64 = 21;
    PERF_REG_X86_R14: u64 = 22;
    PERF_REG_X86_R15: u64 = 23;
    PERF_REG_X86_32_MAX: u64 = 16;
    PERF_REG_X86_64_MAX: u64 = 24;
}

constants! {
    "A register of AArch64 in a mask, `", "` of `perf_regs.h`.";
    PERF_REG_ARM64_X0: u64 = 0;
    PERF_REG_ARM64_X1: u64 = 1;
    PERF_REG_ARM64_X2: u64 = 2;
    PERF_REG_ARM64_X3: u64 = 3;
    PERF_REG_ARM64_X4: u64 = 4;
    PERF_REG_ARM64_X5: u64 = 5;
    PERF_REG_ARM64_X6: u64 = 6;
    PERF_REG_ARM64_X7: u64 = 7;
    PERF_REG_ARM64_X8: u64 = 8;
    PERF_REG_ARM64_X9: u64 = 9;
    PERF_REG_ARM64_X10: u64 = 10;
    PERF_REG_ARM64_X11: u64 = 11;
    PERF_REG_ARM64_X12: u64 = 12;
    PERF_REG_ARM64_X13: u64 = 13;
    PERF_REG_ARM64_X14: u64 = 14;
    PERF_REG_ARM64_X15: u64 = 15;
    PERF_REG_ARM64_X16: u64 = 16;
    PERF_REG_ARM64_X17: u64 = 17;
    PERF_REG_ARM64_X18: u64 = 18;
    PERF_REG_ARM64_X19: u64 = 19;
    PERF_REG_ARM64_X20: u64 = 20;
    PERF_REG_ARM64_X21: u64 = 21;
    PERF_REG_ARM64_X22: u64 = 22;
    PERF_REG_ARM64_X23: u64 = 23;
    PERF_REG_ARM64_X24: u64 = 24;
    PERF_REG_ARM64_X25: u64 = 25;
    PERF_REG_ARM64_X26: u64 = 26;
    PERF_REG_ARM64_X27: u64 = 27;
    PERF_REG_ARM64_X28: u64 = 28;
    PERF_REG_ARM64_X29: u64 = 29;
    PERF_REG_ARM64_LR: u64 = 30;
    PERF_REG_ARM64_SP: u64 = 31;
    PERF_REG_ARM64_PC: u64 = 32;
    PERF_REG_ARM64_MAX: u64 = 33;
}

constants! {
    "A register of 32-bit ARM in a mask, `", "` of `perf_regs.h`.";
    PERF_REG_ARM_R0: u64 = 0;
    PERF_REG_ARM_R1: u64 = 1;
    PERF_REG_ARM_R2: u64 = 2;
    PERF_REG_ARM_R3: u64 = 3;
    PERF_REG_ARM_R4: u64 = 4;
    PERF_REG_ARM_R5: u64 = 5;
    PERF_REG_ARM_R6: u64 = 6;
    PERF_REG_ARM_R7: u64 = 7;
    PERF_REG_ARM_R8: u64 = 8;
    PERF_REG_ARM_R9: u64 = 9;
    PERF_REG_ARM_R10: u64 = 10;
    PERF_REG_ARM_FP: u64 = 11;
    PERF_REG_ARM_IP: u64 = 12;
    PERF_REG_ARM_SP: u64 = 13;
    PERF_REG_ARM_LR: u64 = 14;
    PERF_REG_ARM_PC: u64 = 15;
    PERF_REG_ARM_MAX: u64 = 16;
}

constants! {
    "A register of MIPS in a mask, `", "` of `perf_regs.h`.";
    PERF_REG_MIPS_PC: u64 = 0;
    PERF_REG_MIPS_R1: u64 = 1;
    PERF_REG_MIPS_R2: u64 = 2;
    PERF_REG_MIPS_R3: u64 = 3;
    PERF_REG_MIPS_R4: u64 = 4;
    PERF_REG_MIPS_R5: u64 = 5;
    PERF_REG_MIPS_R6: u64 = 6;
    PERF_REG_MIPS_R7: u64 = 7;
    PERF_REG_MIPS_R8: u64 = 8;
    PERF_REG_MIPS_R9: u64 = 9;
    PERF_REG_MIPS_R10: u64 = 10;
    PERF_REG_MIPS_R11: u64 = 11;
    PERF_REG_MIPS_R12: u64 = 12;
    PERF_REG_MIPS_R13: u64 = 13;
    PERF_REG_MIPS_R14: u64 = 14;
    PERF_REG_MIPS_R15: u64 = 15;
    PERF_REG_MIPS_R16: u64 = 16;
    PERF_REG_MIPS_R17: u64 = 17;
    PERF_REG_MIPS_R18: u64 = 18;
    PERF_REG_MIPS_R19: u64 = 19;
    PERF_REG_MIPS_R20: u64 = 20;
    PERF_REG_MIPS_R21: u64 = 21;
    PERF_REG_MIPS_R22: u64 = 22;
    PERF_REG_MIPS_R23: u64 = 23;
    PERF_REG_MIPS_R24: u64 = 24;
    PERF_REG_MIPS_R25: u64 = 25;
    PERF_REG_MIPS_R28: u64 = 26;
    PERF_REG_MIPS_R29: u64 = 27;
    PERF_REG_MIPS_R30: u64 = 28;
    PERF_REG_MIPS_R31: u64 = 29;
    PERF_REG_MIPS_MAX: u64 = 30;
}

constants! {
    "A field of counter values, `", "` of `perf_event.h`.";
    PERF_FORMAT_TOTAL_TIME_ENABLED: u64 = 1 << 0;
    PERF_FORMAT_TOTAL_TIME_RUNNING: u64 = 1 << 1;
    PERF_FORMAT_ID: u64 = 1 << 2;
    PERF_FORMAT_GROUP: u64 = 1 << 3;
}

constants! {
    "A value in a call chain that starts a context, `", "` of `perf_event.h`.";
    PERF_CONTEXT_HV: u64 = -32_i64 as u64;
    PERF_CONTEXT_KERNEL: u64 = -128_i64 as u64;
    PERF_CONTEXT_USER: u64 = -512_i64 as u64;
    PERF_CONTEXT_GUEST: u64 = -2048_i64 as u64;
    PERF_CONTEXT_GUEST_KERNEL: u64 = -2176_i64 as u64;
    PERF_CONTEXT_GUEST_USER: u64 = -2560_i64 as u64;
    PERF_CONTEXT_MAX: u64 = -4095_i64 as u64;
}
