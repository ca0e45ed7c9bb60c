
// Put after the text of document 000 with document 02's changes, in the copy that is run step by step: what that file keeps to itself.
impl JsVm {
    /// How many steps the loop makes before it gives ExecutionLimitExceeded.
    pub fn limit_steps(&mut self, n: usize) {
        self.max_steps = n;
    }

    /// The loop again, on what stands.
    pub fn go_on(&mut self) -> Result<JsValue, JsVmError> {
        self.run_loop()
    }

    /// The catch place of each handler, and the operands and frames that it saved; the oldest first.
    pub fn handlers(&self) -> Vec<[usize; 3]> {
        self.try_stack.iter().map(|t| [t.catch_ip, t.stack_depth, t.call_depth]).collect()
    }

    pub fn handler_count(&self) -> usize {
        self.try_stack.len()
    }

    /// A machine that holds the same.
    pub fn copy(&self) -> JsVm {
        JsVm {
            stack: self.stack.clone(),
            call_stack: self.call_stack.clone(),
            globals: self.globals.clone(),
            object_arena: self.object_arena.clone(),
            function_arena: self.function_arena.clone(),
            try_stack: self.try_stack.clone(),
            output: self.output.clone(),
            max_stack: self.max_stack,
            max_steps: self.max_steps,
        }
    }
}
