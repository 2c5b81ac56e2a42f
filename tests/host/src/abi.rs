//! The functions of the proved archive, as include/rindthok.h declares them.

extern "C" {
    pub fn rindthok_words_to_physical(source: *const u16, sources: usize, target: *mut u16, targets: usize, place: *mut usize) -> u16;
    pub fn rindthok_words_to_algebraic(source: *const u16, sources: usize, target: *mut u16, targets: usize, place: *mut usize) -> u16;
    pub fn rindthok_write6250(bytes: *const u8, count: usize, words: *mut u16, space: usize, groups: *mut usize, place: *mut usize) -> u16;
    pub fn rindthok_read6250_forward(
        words: *const u16,
        word_count: usize,
        maps: *const u16,
        map_count: usize,
        output: *mut u8,
        output_space: usize,
        size: *mut usize,
        changes: *mut usize,
        counts: *mut usize,
        place: *mut usize,
    ) -> u16;
    pub fn rindthok_read6250_backward(
        words: *const u16,
        word_count: usize,
        maps: *const u16,
        map_count: usize,
        output: *mut u8,
        output_space: usize,
        size: *mut usize,
        changes: *mut usize,
        counts: *mut usize,
        place: *mut usize,
    ) -> u16;
    pub fn rindthok_log6250_forward(
        words: *const u16,
        word_count: usize,
        maps: *const u16,
        map_count: usize,
        log: *mut u8,
        log_space: usize,
        length: *mut usize,
        place: *mut usize,
    ) -> u16;
    pub fn rindthok_log6250_backward(
        words: *const u16,
        word_count: usize,
        maps: *const u16,
        map_count: usize,
        log: *mut u8,
        log_space: usize,
        length: *mut usize,
        place: *mut usize,
    ) -> u16;
    pub fn rindthok_read_log(
        groups: usize,
        log: *const u8,
        log_length: usize,
        maps: *mut u16,
        map_space: usize,
        counts: *mut usize,
        place: *mut usize,
    ) -> u16;
    pub fn rindthok_write800(bytes: *const u8, byte_count: usize, characters: *mut u16, character_space: usize, count: *mut usize, place: *mut usize) -> u16;
    pub fn rindthok_read800_forward(
        characters: *const u16,
        character_count: usize,
        output: *mut u8,
        output_space: usize,
        size: *mut usize,
        track: *mut usize,
        changes: *mut usize,
        counts: *mut usize,
        place: *mut usize,
    ) -> u16;
    pub fn rindthok_read800_backward(
        characters: *const u16,
        character_count: usize,
        output: *mut u8,
        output_space: usize,
        size: *mut usize,
        track: *mut usize,
        changes: *mut usize,
        counts: *mut usize,
        place: *mut usize,
    ) -> u16;
    pub fn rindthok_copy800_forward(
        characters: *const u16,
        character_count: usize,
        words: *mut u16,
        word_space: usize,
        size: *mut usize,
        track: *mut usize,
        changes: *mut usize,
        counts: *mut usize,
        groups: *mut usize,
        place: *mut usize,
    ) -> u16;
    pub fn rindthok_copy800_backward(
        characters: *const u16,
        character_count: usize,
        words: *mut u16,
        word_space: usize,
        size: *mut usize,
        track: *mut usize,
        changes: *mut usize,
        counts: *mut usize,
        groups: *mut usize,
        place: *mut usize,
    ) -> u16;
    pub fn rindthok_map_to_physical(map: u16, moved: *mut u16, place: *mut usize) -> u16;
    pub fn rindthok_map_to_algebraic(map: u16, moved: *mut u16, place: *mut usize) -> u16;
    pub fn rindthok_card_words_to_physical(
        card: *const u8,
        card_length: usize,
        source: *const u16,
        sources: usize,
        target: *mut u16,
        targets: usize,
        place: *mut usize,
    ) -> u16;
    pub fn rindthok_card_words_to_algebraic(
        card: *const u8,
        card_length: usize,
        source: *const u16,
        sources: usize,
        target: *mut u16,
        targets: usize,
        place: *mut usize,
    ) -> u16;
    pub fn rindthok_card_map_to_physical(card: *const u8, card_length: usize, map: u16, moved: *mut u16, place: *mut usize) -> u16;
    pub fn rindthok_card_map_to_algebraic(card: *const u8, card_length: usize, map: u16, moved: *mut u16, place: *mut usize) -> u16;
    pub fn rindthok_inverse_card(card: *const u8, card_length: usize, inverse: *mut u8, place: *mut usize) -> u16;
}
