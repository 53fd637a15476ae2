"""The worked examples of FIDO U2F Raw Message Formats v1.2 (20170411), section 8."""

HANDLE = bytes.fromhex("2a552dfdb7477ed65fd84133f86196010b2215b57da75d315b7b9e8fe2e3925a"
                       "6019551bab61d16591659cbaf00b4950f7abfe6660e2e006f76868b772d70c25")


class Register:  # 8.1
    challenge = bytes.fromhex("4142d21c00d94ffb9d504ada8f99b721f4b191ae4e37ca0140f696b6983cfacb")
    application = bytes.fromhex("f0e6a6a97042a4f1f1c87f5f7d44315b2d852c2df5c7991cc66241bf7072d1c4")
    public_key = bytes.fromhex("04b174bc49c7ca254b70d2e5c207cee9cf174820ebd77ea3c65508c26da51b657c"
                               "1cc6b952f8621697936482da0a6d3d3826a59095daf6cd7c03e2e60385d2f6d9")
    certificate = bytes.fromhex("3082013c3081e4a003020102020a47901280001155957352300a06082a8648ce3d0403023017311530130603"
                                "550403130c476e756262792050696c6f74301e170d3132303831343138323933325a170d3133303831343138"
                                "323933325a3031312f302d0603550403132650696c6f74476e756262792d302e342e312d3437393031323830"
                                "3030313135353935373335323059301306072a8648ce3d020106082a8648ce3d030107034200048d617e65c9"
                                "508e64bcc5673ac82a6799da3c1446682c258c463fffdf58dfd2fa3e6c378b53d795c4a4dffb4199edd7862f"
                                "23abaf0203b4b8911ba0569994e101300a06082a8648ce3d0403020347003044022060cdb6061e9c22262d1a"
                                "ac1d96d8c70829b2366531dda268832cb836bcd30dfa0220631b1459f09e6330055722c8d89b7f48883b9089"
                                "b88d60d1d9795902b30410df")
    signature = bytes.fromhex("304502201471899bcc3987e62e8202c9b39c33c19033f7340352dba80fcab017db9230e4"
                              "02210082677d673d891933ade6f617e5dbde2e247e70423fd5ad7804a6d3d3961ef871")
    to_sign = b"\x00" + application + challenge + HANDLE + public_key
    reply = b"\x05" + public_key + bytes([len(HANDLE)]) + HANDLE + certificate + signature


class Authenticate:  # 8.2
    challenge = bytes.fromhex("ccd6ee2e47baef244d49a222db496bad0ef5b6f93aa7cc4d30c4821b3b9dbc57")
    application = bytes.fromhex("4b0be934baebb5d12d26011b69227fa5e86df94e7d94aa2949a89f2d493992ca")
    counter = 1
    signature = bytes.fromhex("304402204b5f0cd17534cedd8c34ee09570ef542a353df4436030ce43d406de870b84778"
                              "0220267bb998fac9b7266eb60e7cb0b5eabdfd5ba9614f53c7b22272ec10047a923f")
    to_sign = application + b"\x01" + counter.to_bytes(4, "big") + challenge
    reply = b"\x01" + counter.to_bytes(4, "big") + signature
