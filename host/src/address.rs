//! An address of a frame: a callsign, the number of its SSID, and bit 7 of the SSID byte (01, "Frame").
use crate::{boundary, Reason};
use std::fmt;
use std::str::FromStr;

/// What stands at the end of an address's text where bit 7 is set.
const BIT7: &str = "+bit7";

/// A station's address: six characters of A-Z and 0-9, padded at the end with spaces, not all spaces, an SSID of 0 to
/// 15, and bit 7 of the SSID byte, which is free. There is no malformed one: the library is asked as it is made.
///
/// Its text is the callsign and the SSID, as `VA3SFL-0`, and `+bit7` behind them where the bit is set. A callsign alone
/// is read with the SSID 0.
///
/// ```
/// use thoweldeck::{Address, Reason};
///
/// let station: Address = "VA3SFL-0".parse()?;
/// assert_eq!(station.callsign(), "VA3SFL");
/// assert_eq!(station.ssid(), 0);
/// assert_eq!(station.to_string(), "VA3SFL-0");
/// assert_eq!("UOSAT5-11".parse::<Address>()?.ssid(), 11);
/// assert_eq!("QST".parse::<Address>()?.to_string(), "QST-0");
///
/// // lower case, a seventh character and an SSID above 15 are no address
/// assert_eq!("va3sfl-0".parse::<Address>(), Err(Reason::Address));
/// assert_eq!("VA3SFLX-0".parse::<Address>(), Err(Reason::Address));
/// assert_eq!("VA3SFL-16".parse::<Address>(), Err(Reason::Address));
/// # Ok::<(), Reason>(())
/// ```
///
/// AX.25 2.2 tells commands from responses by bit 7, and newer terminal controllers set it. Here it is a part of the
/// address: it is read, told and written, and decides nothing. What was read in a frame can be written as it was read:
///
/// ```
/// use thoweldeck::{Address, Reason, Request};
///
/// let (satellite, station): (Address, Address) = ("UOSAT5-11+bit7".parse()?, "VA3SFL".parse()?);
/// assert!(satellite.bit7() && !station.bit7());
/// assert_eq!(satellite.to_string(), "UOSAT5-11+bit7");
/// // the same station, whatever the bit
/// assert_eq!(satellite.with_bit7(false), "UOSAT5-11".parse()?);
///
/// let frame = Request::start(satellite, station, 7);
/// assert_eq!((frame[6], frame[13]), (0xF6, 0x61));
/// let heard = Request::read(&frame)?.destination;
/// assert_eq!(heard.to_string().parse(), Ok(satellite));
///
/// // nothing else may stand behind a plus
/// assert_eq!("VA3SFL-0+bit8".parse::<Address>(), Err(Reason::Address));
/// # Ok::<(), Reason>(())
/// ```
#[derive(Clone, Copy, Debug, PartialEq, Eq, Hash)]
pub struct Address {
    characters: [u8; 6],
    ssid: u8,
    bit7: bool,
}

impl Address {
    /// The address of a callsign, without its padding, and the number of an SSID, with bit 7 clear.
    ///
    /// # Errors
    ///
    /// Refuses 2: it is malformed.
    pub fn new(callsign: &str, ssid: u8) -> Result<Address, Reason> {
        let given = callsign.as_bytes();
        // a space at the end would be padding: each address is made from one callsign
        if given.len() > 6 || given.contains(&b' ') {
            return Err(Reason::Address);
        }
        let mut characters = [b' '; 6];
        characters[..given.len()].copy_from_slice(given);
        let made = Address { characters, ssid, bit7: false };
        // the library's own rule decides: it writes no frame with a malformed address
        boundary::write_start(made.to_number(), made.to_number(), 0, &mut [0; 23])?;
        Ok(made)
    }

    /// The callsign, without its padding.
    #[must_use]
    pub fn callsign(&self) -> &str {
        std::str::from_utf8(&self.characters).expect("characters of A-Z and 0-9").trim_end()
    }

    /// The number of the SSID, 0 to 15.
    #[must_use]
    pub fn ssid(&self) -> u8 {
        self.ssid
    }

    /// Whether bit 7 of the SSID byte is set.
    #[must_use]
    pub fn bit7(&self) -> bool {
        self.bit7
    }

    /// The same address with bit 7 of the SSID byte set, or clear.
    ///
    /// ```
    /// use thoweldeck::{Address, Reason};
    ///
    /// let station = Address::new("VA3SFL", 0)?;
    /// assert!(!station.bit7());
    /// assert_eq!(station.with_bit7(true), "VA3SFL-0+bit7".parse()?);
    /// assert_eq!(station.with_bit7(true).with_bit7(false), station);
    /// # Ok::<(), Reason>(())
    /// ```
    #[must_use]
    pub fn with_bit7(self, bit7: bool) -> Address {
        Address { bit7, ..self }
    }

    /// The address as the number that [`boundary`](crate::boundary) takes: six characters, the SSID and bit 7 as 0 or 1,
    /// a byte each, least significant byte first.
    #[must_use]
    pub fn to_number(self) -> u64 {
        let [a, b, c, d, e, f] = self.characters;
        u64::from_le_bytes([a, b, c, d, e, f, self.ssid, u8::from(self.bit7)])
    }

    /// The address that a number tells. What the library read in an accepted frame is well formed.
    pub(crate) fn told(number: u64) -> Address {
        let [a, b, c, d, e, f, ssid, bit7] = number.to_le_bytes();
        Address { characters: [a, b, c, d, e, f], ssid, bit7: bit7 == 1 }
    }
}

impl fmt::Display for Address {
    fn fmt(&self, f: &mut fmt::Formatter<'_>) -> fmt::Result {
        let end = if self.bit7 { BIT7 } else { "" };
        f.pad(&format!("{}-{}{end}", self.callsign(), self.ssid))
    }
}

impl FromStr for Address {
    type Err = Reason;

    /// Reads `VA3SFL-0`, or `VA3SFL`, which has the SSID 0; each with `+bit7` behind it where the bit is set.
    ///
    /// # Errors
    ///
    /// Refuses 2: it is malformed.
    fn from_str(text: &str) -> Result<Address, Reason> {
        let (plain, bit7) = text.strip_suffix(BIT7).map_or((text, false), |plain| (plain, true));
        let address = match plain.split_once('-') {
            None => Address::new(plain, 0)?,
            Some((callsign, ssid)) => Address::new(callsign, ssid_of(ssid)?)?,
        };
        Ok(address.with_bit7(bit7))
    }
}

// The number that one or two digits say, without needless zeros, so that an SSID has one text.
fn ssid_of(digits: &str) -> Result<u8, Reason> {
    let number: u8 = digits.parse().map_err(|_| Reason::Address)?;
    if number.to_string() == digits {
        Ok(number)
    } else {
        Err(Reason::Address)
    }
}
