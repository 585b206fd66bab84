//! A ping's payload read as a packet, sent in a frame, and one that is cut short. README says how to
//! run it.
use hns_port::{Frame, NetworkMagic, Packet, PacketType, Refusal};

fn main() -> Result<(), Refusal> {
    let payload = [1, 2, 3, 4, 5, 6, 7, 8];
    let packet = Packet::decode(PacketType::Ping, &payload)?;
    println!("{packet:?}");

    let frame = Frame::from_packet(&packet)?.encode(NetworkMagic::Mainnet)?;
    println!("{frame:02x?}");

    if let Err(refusal) = Packet::decode(PacketType::Ping, &payload[..1]) {
        println!("{refusal}");
    }
    Ok(())
}
