//! Finetune: the printed periods of each, and what notes, limits and semitones take from them.

/// The limits of every row: the least and the greatest printed period.
pub const LEAST_PERIOD: u32 = 108;
pub const GREATEST_PERIOD: u32 = 907;

/// The lowest and the highest finetune.
pub const FLATTEST: i32 = -8;
pub const SHARPEST: i32 = 7;

/// The periods that a row has.
pub const PLACES: usize = 36;

/// The rows that source document 004 prints in its section 4, in its order: finetune 0 to 7, then
/// -8 to -1.
const ROWS: [[u32; PLACES]; 16] = [
    // Finetune 0.
    [
        856, 808, 762, 720, 678, 640, 604, 570, 538, 508, 480, 453, //
        428, 404, 381, 360, 339, 320, 302, 285, 269, 254, 240, 226, //
        214, 202, 190, 180, 170, 160, 151, 143, 135, 127, 120, 113,
    ],
    // Finetune +1.
    [
        850, 802, 757, 715, 674, 637, 601, 567, 535, 505, 477, 450, //
        425, 401, 379, 357, 337, 318, 300, 284, 268, 253, 239, 225, //
        213, 201, 189, 179, 169, 159, 150, 142, 134, 126, 119, 113,
    ],
    // Finetune +2.
    [
        844, 796, 752, 709, 670, 632, 597, 563, 532, 502, 474, 447, //
        422, 398, 376, 355, 335, 316, 298, 282, 266, 251, 237, 224, //
        211, 199, 188, 177, 167, 158, 149, 141, 133, 125, 118, 112,
    ],
    // Finetune +3.
    [
        838, 791, 746, 704, 665, 628, 592, 559, 528, 498, 470, 444, //
        419, 395, 373, 352, 332, 314, 296, 280, 264, 249, 235, 222, //
        209, 198, 187, 176, 166, 157, 148, 140, 132, 125, 118, 111,
    ],
    // Finetune +4.
    [
        832, 785, 741, 699, 660, 623, 588, 555, 524, 495, 467, 441, //
        416, 392, 370, 350, 330, 312, 294, 278, 262, 247, 233, 220, //
        208, 196, 185, 175, 165, 156, 147, 139, 131, 124, 117, 110,
    ],
    // Finetune +5.
    [
        826, 779, 736, 694, 655, 619, 584, 551, 520, 491, 463, 437, //
        413, 390, 368, 347, 328, 309, 292, 276, 260, 245, 232, 219, //
        206, 195, 184, 174, 164, 155, 146, 138, 130, 123, 116, 109,
    ],
    // Finetune +6.
    [
        820, 774, 730, 689, 651, 614, 580, 547, 516, 487, 460, 434, //
        410, 387, 365, 345, 325, 307, 290, 274, 258, 244, 230, 217, //
        205, 193, 183, 172, 163, 154, 145, 137, 129, 122, 115, 109,
    ],
    // Finetune +7.
    [
        814, 768, 725, 684, 646, 610, 575, 543, 513, 484, 457, 431, //
        407, 384, 363, 342, 323, 305, 288, 272, 256, 242, 228, 216, //
        204, 192, 181, 171, 161, 152, 144, 136, 128, 121, 114, 108,
    ],
    // Finetune -8.
    [
        907, 856, 808, 762, 720, 678, 640, 604, 570, 538, 504, 480, //
        453, 428, 404, 381, 360, 339, 320, 302, 285, 269, 254, 240, //
        226, 214, 202, 190, 180, 170, 160, 151, 143, 135, 127, 120,
    ],
    // Finetune -7.
    [
        900, 850, 802, 757, 715, 675, 636, 601, 567, 535, 505, 477, //
        450, 425, 401, 379, 357, 337, 318, 300, 284, 268, 253, 238, //
        225, 212, 200, 189, 179, 169, 159, 150, 142, 134, 126, 119,
    ],
    // Finetune -6.
    [
        894, 844, 796, 752, 709, 670, 632, 597, 563, 532, 502, 474, //
        447, 422, 398, 376, 355, 335, 316, 298, 282, 266, 251, 237, //
        223, 211, 199, 188, 177, 167, 158, 149, 141, 133, 125, 118,
    ],
    // Finetune -5.
    [
        887, 838, 791, 746, 704, 665, 628, 592, 559, 528, 498, 470, //
        444, 419, 395, 373, 352, 332, 314, 296, 280, 264, 249, 235, //
        222, 209, 198, 187, 176, 166, 157, 148, 140, 132, 125, 118,
    ],
    // Finetune -4.
    [
        881, 832, 785, 741, 699, 660, 623, 588, 555, 524, 494, 467, //
        441, 416, 392, 370, 350, 330, 312, 294, 278, 262, 247, 233, //
        220, 208, 196, 185, 175, 165, 156, 147, 139, 131, 123, 117,
    ],
    // Finetune -3.
    [
        875, 826, 779, 736, 694, 655, 619, 584, 551, 520, 491, 463, //
        437, 413, 390, 368, 347, 338, 309, 292, 276, 260, 245, 232, //
        219, 206, 195, 184, 174, 164, 155, 146, 138, 130, 123, 116,
    ],
    // Finetune -2.
    [
        868, 820, 774, 730, 689, 651, 614, 580, 547, 516, 487, 460, //
        434, 410, 387, 365, 345, 325, 307, 290, 274, 258, 244, 230, //
        217, 205, 193, 183, 172, 163, 154, 145, 137, 129, 122, 115,
    ],
    // Finetune -1.
    [
        862, 814, 768, 725, 684, 646, 610, 575, 543, 513, 484, 457, //
        431, 407, 384, 363, 342, 323, 305, 288, 272, 256, 242, 228, //
        216, 203, 192, 181, 171, 161, 152, 144, 136, 128, 121, 114,
    ],
];

/// The row of a finetune.
pub fn row(finetune: i32) -> &'static [u32; PLACES] {
    &ROWS[finetune.rem_euclid(16) as usize]
}

/// The finetune that four bits say: 8 to 15 mean -8 to -1.
pub fn signed(bits: u32) -> i32 {
    if bits <= SHARPEST as u32 {
        bits as i32
    } else {
        bits as i32 - 16
    }
}

pub fn legal(finetune: i32) -> bool {
    (FLATTEST..=SHARPEST).contains(&finetune)
}

/// 0, or a period within the limits of every row.
pub fn legal_period(period: u32) -> bool {
    period == 0 || (LEAST_PERIOD..=GREATEST_PERIOD).contains(&period)
}

/// What a note of this period, 113 to 856, becomes.
pub fn tuned(period: u32, finetune: i32) -> u32 {
    if finetune == 0 {
        period
    } else {
        row(finetune)[place(row(0), period)]
    }
}

/// A period above 0, or the end of the row that it is beyond.
pub fn limited(period: u32, finetune: i32) -> u32 {
    let row = row(finetune);
    period.clamp(row[PLACES - 1], row[0])
}

/// The period so many semitones above this one, at most the row's last.
pub fn raised(period: u32, semitones: u32, finetune: i32) -> u32 {
    let row = row(finetune);
    row[(place(row, period) + semitones as usize).min(PLACES - 1)]
}

/// The place of a row's first period at or below this one; from beyond its last, that of the last.
fn place(row: &[u32; PLACES], period: u32) -> usize {
    let first = row.iter().position(|&entry| entry <= period);
    first.unwrap_or(PLACES - 1)
}
