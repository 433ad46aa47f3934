// Prints the entities of a file as the suite's JSON lines, as Google's protobuf library reads the messages of the public .proto files.
// The code that protobuf made of those is OSM-binary's library (libosmpbf-dev). What isn't protobuf's is here: the frames, the columns
// that belong together, and the indices of texts. A file that breaks one of these is refused.
//
//     c++ -O1 -o osmpbf_lines osmpbf_lines.cc -losmpbf -lprotobuf -lz

#include <arpa/inet.h>
#include <cstdint>
#include <cstdio>
#include <cstdlib>
#include <fstream>
#include <iostream>
#include <iterator>
#include <osmpbf/osmpbf.h>
#include <sstream>
#include <string>
#include <zlib.h>

using std::string;

[[noreturn]] static void refuse(const string &why) {
    std::cout.flush();
    std::cerr << "refused: " << why << "\n";
    std::exit(1);
}

static void hold(bool condition, const char *why) {
    if (!condition) refuse(why);
}

static string quoted(const string &text) {
    string out = "\"";
    for (unsigned char letter : text) {
        char hex[8];
        if (letter == '"' || letter == '\\') {
            out += '\\';
            out += static_cast<char>(letter);
        } else if (letter < 0x20) {
            std::snprintf(hex, sizeof hex, "\\u%04x", letter);
            out += hex;
        } else {
            out += static_cast<char>(letter);
        }
    }
    return out + "\"";
}

struct Block {
    OSMPBF::PrimitiveBlock message;
    const string &text(int64_t index) const {
        hold(index >= 0 && index < message.stringtable().s_size(), "an index is past the string table");
        return message.stringtable().s(static_cast<int>(index));
    }
    int64_t lat(int64_t stored) const { return message.lat_offset() + stored * message.granularity(); }
    int64_t lon(int64_t stored) const { return message.lon_offset() + stored * message.granularity(); }
    int64_t millis(int64_t stored) const { return stored * message.date_granularity(); }
};

static string begin(const char *kind, int64_t id) { return string("{\"kind\":\"") + kind + "\",\"id\":" + std::to_string(id); }

static string number(const char *name, int64_t value) { return string(",\"") + name + "\":" + std::to_string(value); }

template <class Thing> static string info(const Block &block, const Thing &thing) {
    string out;
    if (!thing.has_info()) return out;
    const OSMPBF::Info &info = thing.info();
    if (info.has_version()) out += number("version", info.version());
    if (info.has_timestamp()) out += number("time", block.millis(info.timestamp()));
    if (info.has_changeset()) out += number("changeset", info.changeset());
    if (info.has_uid()) out += number("uid", info.uid());
    if (info.has_user_sid()) out += ",\"user\":" + quoted(block.text(info.user_sid()));
    return out;
}

static string pair_of(const Block &block, int64_t key, int64_t value) {
    return "[" + quoted(block.text(key)) + "," + quoted(block.text(value)) + "]";
}

template <class Thing> static string tags(const Block &block, const Thing &thing) {
    hold(thing.keys_size() == thing.vals_size(), "keys and vals aren't of one length");
    string out;
    for (int i = 0; i < thing.keys_size(); i++) out += (i ? "," : "") + pair_of(block, thing.keys(i), thing.vals(i));
    return ",\"tags\":[" + out + "]";
}

static void print(const string &entity) { std::cout << entity << "}\n"; }

static void node(const Block &block, const OSMPBF::Node &thing) {
    string place = number("lat", block.lat(thing.lat())) + number("lon", block.lon(thing.lon()));
    print(begin("node", thing.id()) + info(block, thing) + tags(block, thing) + place);
}

struct Sums {
    int64_t id = 0, lat = 0, lon = 0, time = 0, changeset = 0, uid = 0, user = 0;
};

static string dense_info(const Block &block, const OSMPBF::DenseInfo &info, int i, Sums &sums) {
    string out;
    if (info.version_size()) out += number("version", info.version(i));
    if (info.timestamp_size()) out += number("time", block.millis(sums.time += info.timestamp(i)));
    if (info.changeset_size()) out += number("changeset", sums.changeset += info.changeset(i));
    if (info.uid_size()) out += number("uid", sums.uid += info.uid(i));
    if (info.user_sid_size()) out += ",\"user\":" + quoted(block.text(sums.user += info.user_sid(i)));
    return out;
}

static void dense_nodes(const Block &block, const OSMPBF::DenseNodes &dense) {
    const int count = dense.id_size();
    hold(dense.lat_size() == count && dense.lon_size() == count, "id, lat and lon aren't of one length");
    const OSMPBF::DenseInfo &info = dense.denseinfo();
    for (int size : {info.version_size(), info.timestamp_size(), info.changeset_size(), info.uid_size(), info.user_sid_size()})
        hold(size == 0 || size == count, "a column of DenseInfo has another length than id");
    Sums sums;
    int at = 0;
    for (int i = 0; i < count; i++) {
        string entity = begin("node", sums.id += dense.id(i)) + dense_info(block, info, i, sums), list;
        while (at < dense.keys_vals_size() && dense.keys_vals(at) != 0) {
            hold(at + 1 < dense.keys_vals_size(), "keys_vals ends after a key");
            list += (list.empty() ? "" : ",") + pair_of(block, dense.keys_vals(at), dense.keys_vals(at + 1));
            at += 2;
        }
        hold(dense.keys_vals_size() == 0 || at < dense.keys_vals_size(), "keys_vals has too few zeros");
        at++;
        entity += ",\"tags\":[" + list + "]" + number("lat", block.lat(sums.lat += dense.lat(i)));
        print(entity + number("lon", block.lon(sums.lon += dense.lon(i))));
    }
    hold(dense.keys_vals_size() == 0 || at == dense.keys_vals_size(), "keys_vals goes on after the last node");
}

static void way(const Block &block, const OSMPBF::Way &thing) {
    string refs;
    int64_t ref = 0;
    for (int i = 0; i < thing.refs_size(); i++) refs += (i ? "," : "") + std::to_string(ref += thing.refs(i));
    hold(thing.lat_size() == thing.lon_size(), "lat and lon aren't of one length");
    string places;
    if (thing.lat_size()) {
        hold(thing.lat_size() == thing.refs_size(), "lat and refs aren't of one length");
        int64_t lat = 0, lon = 0;
        for (int i = 0; i < thing.lat_size(); i++) {
            places += (i ? ",[" : "[") + std::to_string(block.lat(lat += thing.lat(i))) + ",";
            places += std::to_string(block.lon(lon += thing.lon(i))) + "]";
        }
        places = ",\"locations\":[" + places + "]";
    }
    print(begin("way", thing.id()) + info(block, thing) + tags(block, thing) + ",\"refs\":[" + refs + "]" + places);
}

static void relation(const Block &block, const OSMPBF::Relation &thing) {
    const int count = thing.memids_size();
    hold(thing.roles_sid_size() == count && thing.types_size() == count, "the columns of the members aren't of one length");
    string members;
    int64_t id = 0;
    for (int i = 0; i < count; i++) {
        const char *kind = thing.types(i) == OSMPBF::Relation::NODE ? "n" : thing.types(i) == OSMPBF::Relation::WAY ? "w" : "r";
        members += (i ? ",[\"" : "[\"") + string(kind) + "\"," + std::to_string(id += thing.memids(i)) + ",";
        members += quoted(block.text(thing.roles_sid(i))) + "]";
    }
    print(begin("relation", thing.id()) + info(block, thing) + tags(block, thing) + ",\"members\":[" + members + "]");
}

static void data(const string &payload) {
    Block block;
    hold(block.message.ParseFromString(payload), "protobuf can't read a PrimitiveBlock");
    for (const OSMPBF::PrimitiveGroup &group : block.message.primitivegroup()) {
        int kinds = (group.nodes_size() > 0) + group.has_dense() + (group.ways_size() > 0) + (group.relations_size() > 0);
        hold(kinds <= 1, "a group has several kinds");
        for (const OSMPBF::Node &thing : group.nodes()) node(block, thing);
        if (group.has_dense()) dense_nodes(block, group.dense());
        for (const OSMPBF::Way &thing : group.ways()) way(block, thing);
        for (const OSMPBF::Relation &thing : group.relations()) relation(block, thing);
    }
}

static void header(const string &payload) {
    OSMPBF::HeaderBlock block;
    hold(block.ParseFromString(payload), "protobuf can't read a HeaderBlock");
    for (const string &feature : block.required_features())
        hold(feature == "OsmSchema-V0.6" || feature == "DenseNodes" || feature == "HistoricalInformation", "an unknown feature is required");
}

static string payload(const string &body) {
    OSMPBF::Blob blob;
    hold(blob.ParseFromString(body), "protobuf can't read a Blob");
    hold(blob.raw().size() < static_cast<size_t>(OSMPBF::max_uncompressed_blob_size), "a blob's raw bytes are past the limit");
    if (blob.has_raw()) return blob.raw();
    hold(blob.has_zlib_data(), "a blob is neither raw nor packed by zlib");
    hold(blob.raw_size() >= 0 && static_cast<uint64_t>(blob.raw_size()) < OSMPBF::max_uncompressed_blob_size, "raw_size is past the limit");
    string out(static_cast<size_t>(blob.raw_size()), '\0');
    uLongf size = out.size();
    const Bytef *from = reinterpret_cast<const Bytef *>(blob.zlib_data().data());
    int status = uncompress(reinterpret_cast<Bytef *>(&out[0]), &size, from, blob.zlib_data().size());
    hold(status == Z_OK, "zlib can't unpack a blob");
    hold(size == out.size(), "a blob has another size than raw_size");
    return out;
}

int main(int, char **words) {
    std::ifstream file(words[1], std::ios::binary);
    const string all{std::istreambuf_iterator<char>(file), std::istreambuf_iterator<char>()};
    bool has_header = false;
    for (size_t at = 0; at < all.size();) {
        hold(all.size() - at >= 4, "the file ends in the four bytes before a BlobHeader");
        uint32_t size = ntohl(*reinterpret_cast<const uint32_t *>(all.substr(at, 4).data()));
        at += 4;
        hold(size < static_cast<uint32_t>(OSMPBF::max_blob_header_size) && size <= all.size() - at, "a BlobHeader is too long");
        OSMPBF::BlobHeader head;
        hold(head.ParseFromString(all.substr(at, size)), "protobuf can't read a BlobHeader");
        at += size;
        hold(head.datasize() >= 0 && static_cast<size_t>(head.datasize()) <= all.size() - at, "a Blob goes past the end");
        const string body = all.substr(at, head.datasize());
        at += head.datasize();
        if (head.type() == "OSMHeader") {
            hold(!has_header, "there are two headers");
            has_header = true;
            header(payload(body));
        } else if (head.type() == "OSMData") {
            hold(has_header, "there is data before the header");
            data(payload(body));
        }
    }
    hold(has_header, "there is no header");
    return 0;
}
