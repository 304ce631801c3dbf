//! A row of 200 columns.

cqlp::row! {
    pub struct Wide {
        column0: i32, column1: i32, column2: i32, column3: i32, column4: i32, column5: i32, column6: i32, column7: i32,
        column8: i32, column9: i32, column10: i32, column11: i32, column12: i32, column13: i32, column14: i32, column15: i32,
        column16: i32, column17: i32, column18: i32, column19: i32, column20: i32, column21: i32, column22: i32, column23: i32,
        column24: i32, column25: i32, column26: i32, column27: i32, column28: i32, column29: i32, column30: i32, column31: i32,
        column32: i32, column33: i32, column34: i32, column35: i32, column36: i32, column37: i32, column38: i32, column39: i32,
        column40: i32, column41: i32, column42: i32, column43: i32, column44: i32, column45: i32, column46: i32, column47: i32,
        column48: i32, column49: i32, column50: i32, column51: i32, column52: i32, column53: i32, column54: i32, column55: i32,
        column56: i32, column57: i32, column58: i32, column59: i32, column60: i32, column61: i32, column62: i32, column63: i32,
        column64: i32, column65: i32, column66: i32, column67: i32, column68: i32, column69: i32, column70: i32, column71: i32,
        column72: i32, column73: i32, column74: i32, column75: i32, column76: i32, column77: i32, column78: i32, column79: i32,
        column80: i32, column81: i32, column82: i32, column83: i32, column84: i32, column85: i32, column86: i32, column87: i32,
        column88: i32, column89: i32, column90: i32, column91: i32, column92: i32, column93: i32, column94: i32, column95: i32,
        column96: i32, column97: i32, column98: i32, column99: i32, column100: i32, column101: i32, column102: i32, column103: i32,
        column104: i32, column105: i32, column106: i32, column107: i32, column108: i32, column109: i32, column110: i32, column111: i32,
        column112: i32, column113: i32, column114: i32, column115: i32, column116: i32, column117: i32, column118: i32, column119: i32,
        column120: i32, column121: i32, column122: i32, column123: i32, column124: i32, column125: i32, column126: i32, column127: i32,
        column128: i32, column129: i32, column130: i32, column131: i32, column132: i32, column133: i32, column134: i32, column135: i32,
        column136: i32, column137: i32, column138: i32, column139: i32, column140: i32, column141: i32, column142: i32, column143: i32,
        column144: i32, column145: i32, column146: i32, column147: i32, column148: i32, column149: i32, column150: i32, column151: i32,
        column152: i32, column153: i32, column154: i32, column155: i32, column156: i32, column157: i32, column158: i32, column159: i32,
        column160: i32, column161: i32, column162: i32, column163: i32, column164: i32, column165: i32, column166: i32, column167: i32,
        column168: i32, column169: i32, column170: i32, column171: i32, column172: i32, column173: i32, column174: i32, column175: i32,
        column176: i32, column177: i32, column178: i32, column179: i32, column180: i32, column181: i32, column182: i32, column183: i32,
        column184: i32, column185: i32, column186: i32, column187: i32, column188: i32, column189: i32, column190: i32, column191: i32,
        column192: i32, column193: i32, column194: i32, column195: i32, column196: i32, column197: i32, column198: i32, column199: i32,
    }
}

impl Wide {
    /// The first and the last column.
    pub fn ends(&self) -> (i32, i32) {
        (self.column0, self.column199)
    }
}
