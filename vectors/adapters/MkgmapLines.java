// Prints the entities of a file as the suite's JSON lines, as mkgmap's reader (on OSM-binary's library for Java) hands them to mkgmap.
// mkgmap keeps no metadata, of tags a table without order, and places in steps of 2^-30 of a turn, so none of these is printed.
//
// It reads the names of files from standard input, and after each file prints a line "# status N WHY", so one machine reads them all.

import java.io.BufferedReader;
import java.io.FileInputStream;
import java.io.InputStreamReader;
import java.io.OutputStream;
import java.io.PrintStream;
import java.util.ArrayList;
import java.util.List;
import java.util.Map;
import uk.me.parabola.imgfmt.app.Coord;
import uk.me.parabola.mkgmap.reader.osm.Element;
import uk.me.parabola.mkgmap.reader.osm.ElementSaver;
import uk.me.parabola.mkgmap.reader.osm.GeneralRelation;
import uk.me.parabola.mkgmap.reader.osm.Node;
import uk.me.parabola.mkgmap.reader.osm.OsmReadingHooks;
import uk.me.parabola.mkgmap.reader.osm.Relation;
import uk.me.parabola.mkgmap.reader.osm.Way;
import uk.me.parabola.mkgmap.reader.osm.bin.OsmBinHandler;
import uk.me.parabola.util.EnhancedProperties;

public class MkgmapLines extends ElementSaver {
    private final StringBuilder out = new StringBuilder();
    private final List<Long> refs = new ArrayList<>();
    private static final Coord SOMEWHERE = new Coord(0.5, 0.5);

    private MkgmapLines() {
        super(new EnhancedProperties());
    }

    private void print(String kind, long id, String rest) {
        out.append("{\"kind\":\"").append(kind).append("\",\"id\":").append(id).append(rest).append("}\n");
    }

    private static String quoted(String text) {
        StringBuilder quoted = new StringBuilder("\"");
        for (char letter : text.toCharArray()) {
            if (letter == '"' || letter == '\\') quoted.append('\\').append(letter);
            else if (letter < 0x20 || letter > 0x7E) quoted.append(String.format("\\u%04x", (int) letter));
            else quoted.append(letter);
        }
        return quoted.append('"').toString();
    }

    @Override
    public void addPoint(long id, Coord place) {
        print("node", id, "");
    }

    @Override
    public void addNode(Node node) {}

    /** mkgmap asks for the place of each ref of a way: here every node has one. */
    @Override
    public Coord getCoord(long id) {
        refs.add(id);
        return SOMEWHERE;
    }

    @Override
    public void addWay(Way way) {
        print("way", way.getId(), ",\"refs\":" + refs);
        refs.clear();
    }

    @Override
    public Node getOrCreateNode(long id) {
        return new Node(id, SOMEWHERE);
    }

    @Override
    public Way getWay(long id) {
        return new Way(id);
    }

    @Override
    public Relation getRelation(long id) {
        return new GeneralRelation(id);
    }

    @Override
    public void addRelation(Relation relation) {
        List<String> members = new ArrayList<>();
        for (Map.Entry<String, Element> member : relation.getElements()) {
            Element element = member.getValue();
            String kind = element instanceof Node ? "n" : element instanceof Way ? "w" : "r";
            members.add("[\"" + kind + "\"," + element.getId() + "," + quoted(member.getKey()) + "]");
        }
        print("relation", relation.getId(), ",\"members\":" + members);
    }

    private static String read(String name, PrintStream to) {
        MkgmapLines saver = new MkgmapLines();
        OsmBinHandler handler = new OsmBinHandler();
        handler.setElementSaver(saver);
        handler.setHooks(new OsmReadingHooks() {});
        try (FileInputStream file = new FileInputStream(name)) {
            handler.parse(file);
            to.print(saver.out);
            return "0";
        } catch (Exception | Error error) {
            return "1 " + error.toString().replace('\n', ' ');
        }
    }

    public static void main(String[] words) throws Exception {
        PrintStream to = System.out;
        // OSM-binary's library says on standard output which frames it passes over.
        System.setOut(new PrintStream(OutputStream.nullOutputStream()));
        BufferedReader names = new BufferedReader(new InputStreamReader(System.in));
        for (String name = names.readLine(); name != null; name = names.readLine()) {
            to.println("# status " + read(name, to));
            to.flush();
        }
    }
}
