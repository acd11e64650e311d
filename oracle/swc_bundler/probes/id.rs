impl ModuleId {
    pub(crate) fn number(self) -> u32 {
        self.0
    }
}

impl ModuleIdGenerator {
    /// Every file that was asked for, by module number.
    pub(crate) fn files(&self) -> Vec<(ModuleId, FileName)> {
        let cache = self.cache.lock();
        let mut files: Vec<_> = cache.iter().map(|(file, v)| (v.0, file.clone())).collect();
        files.sort_by_key(|(id, _)| *id);
        files
    }
}
