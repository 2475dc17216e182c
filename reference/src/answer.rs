//! Refusals: 01, "Grounds".

/// The grounds of a refusal, each with its number in 01's table.
#[derive(Clone, Copy, Debug, PartialEq, Eq)]
#[repr(u8)]
pub enum Ground {
    ListTooLong = 1,
    PartialWord = 2,
    CutCommand = 3,
    AfterSyncFull = 4,
    RegisterNotSet = 5,
    FillOnFourBits = 6,
    SyncLoadMissing = 7,
    SyncTileMissing = 8,
    SyncPipeMissing = 9,
    NotDrawn = 10,
    MisalignedImage = 11,
    OutsideMemory = 12,
    WorkTooShort = 13,
    OutputTooShort = 14,
    NotEncodable = 15,
    TextureMemoryLength = 16,
    NotCopied = 17,
    OutsideTexture = 18,
    UnassignedNumber = 19,
    OffsetOutside = 20,
    TooManyRead = 21,
    NotTranslated = 22,
    WrongParameter = 23,
    NothingStartsThere = 24,
    LengthsDiffer = 25,
    NoEntry = 26,
    NotShown = 27,
}

/// A refusal: its ground and its place.
#[derive(Clone, Copy, Debug, PartialEq, Eq)]
pub struct Refusal {
    pub ground: Ground,
    pub place: usize,
}

impl Refusal {
    pub fn new(ground: Ground, place: usize) -> Self {
        Refusal { ground, place }
    }
}

/// Writes items to the front of a lent buffer, or refuses by 14 with what is needed, in
/// the measure of the caller.
pub fn write_front<T: Copy>(out: &mut [T], items: &[T], needed: usize) -> Result<(), Refusal> {
    let front = out.get_mut(..items.len());
    let front = front.ok_or(Refusal::new(Ground::OutputTooShort, needed))?;
    front.copy_from_slice(items);
    Ok(())
}
