// Prints the entities of a file as the suite's JSON lines, as Osmosis's tasks read them: --read-pbf (OSM-binary's library for Java), or
// --read-pbf-fast with the word "fast".
//
// It reads the names of files from standard input, and after each file prints a line "# status N WHY", so one machine reads them all.

import crosby.binary.osmosis.OsmosisReader;
import java.io.BufferedReader;
import java.io.ByteArrayOutputStream;
import java.io.File;
import java.io.FileInputStream;
import java.io.InputStreamReader;
import java.io.OutputStream;
import java.io.PrintStream;
import java.util.ArrayList;
import java.util.List;
import java.util.Map;
import java.util.logging.LogManager;
import org.openstreetmap.osmosis.core.container.v0_6.EntityContainer;
import org.openstreetmap.osmosis.core.domain.v0_6.Entity;
import org.openstreetmap.osmosis.core.domain.v0_6.Node;
import org.openstreetmap.osmosis.core.domain.v0_6.Relation;
import org.openstreetmap.osmosis.core.domain.v0_6.RelationMember;
import org.openstreetmap.osmosis.core.domain.v0_6.Tag;
import org.openstreetmap.osmosis.core.domain.v0_6.Way;
import org.openstreetmap.osmosis.core.domain.v0_6.WayNode;
import org.openstreetmap.osmosis.core.task.v0_6.RunnableSource;
import org.openstreetmap.osmosis.core.task.v0_6.Sink;
import org.openstreetmap.osmosis.pbf2.v0_6.PbfReader;

public class OsmosisLines implements Sink {
    private final StringBuilder out = new StringBuilder();

    private static String quoted(String text) {
        StringBuilder quoted = new StringBuilder("\"");
        for (char letter : text.toCharArray()) {
            if (letter == '"' || letter == '\\') quoted.append('\\').append(letter);
            else if (letter < 0x20 || letter > 0x7E) quoted.append(String.format("\\u%04x", (int) letter));
            else quoted.append(letter);
        }
        return quoted.append('"').toString();
    }

    private static long nano(double degrees) {
        return Math.round(degrees * 1e9);
    }

    private static String kind(Entity entity) {
        return entity.getType().name().toLowerCase();
    }

    private static String own(Entity entity) {
        List<String> parts = new ArrayList<>();
        if (entity instanceof Node) {
            Node node = (Node) entity;
            return ",\"lat\":" + nano(node.getLatitude()) + ",\"lon\":" + nano(node.getLongitude());
        } else if (entity instanceof Way) {
            for (WayNode node : ((Way) entity).getWayNodes()) parts.add("" + node.getNodeId());
            return ",\"refs\":" + parts;
        }
        for (RelationMember member : ((Relation) entity).getMembers()) {
            String kind = member.getMemberType().name().substring(0, 1).toLowerCase();
            parts.add("[\"" + kind + "\"," + member.getMemberId() + "," + quoted(member.getMemberRole()) + "]");
        }
        return ",\"members\":" + parts;
    }

    @Override
    public void process(EntityContainer container) {
        Entity entity = container.getEntity();
        if (entity.getType().name().equals("Bound")) return;
        out.append("{\"kind\":\"").append(kind(entity)).append("\",\"id\":").append(entity.getId());
        out.append(",\"version\":").append(entity.getVersion()).append(",\"changeset\":").append(entity.getChangesetId());
        // Osmosis gives an absent time as a millisecond before 1970, which its XML has as that second.
        long time = entity.getTimestamp() == null ? 0 : entity.getTimestamp().getTime();
        out.append(",\"time\":").append(time == -1 ? 0 : time);
        // A user without a number or a name is none to Osmosis.
        boolean known = entity.getUser() != null && entity.getUser().getId() != -1;
        out.append(",\"uid\":").append(known ? entity.getUser().getId() : 0);
        out.append(",\"user\":").append(quoted(known ? entity.getUser().getName() : ""));
        List<String> tags = new ArrayList<>();
        for (Tag tag : entity.getTags()) tags.add("[" + quoted(tag.getKey()) + "," + quoted(tag.getValue()) + "]");
        out.append(",\"tags\":").append(tags).append(own(entity)).append("}\n");
    }

    @Override
    public void initialize(Map<String, Object> data) {}

    @Override
    public void complete() {}

    @Override
    public void close() {}

    private static String read(String name, boolean fast, PrintStream to) {
        OsmosisLines sink = new OsmosisLines();
        try (FileInputStream file = new FileInputStream(name)) {
            RunnableSource source = fast ? new PbfReader(new File(name), 1) : new OsmosisReader(file);
            source.setSink(sink);
            source.run();
            to.print(sink.out);
            return "0";
        } catch (Exception | Error error) {
            return "1 " + error.toString().replace('\n', ' ');
        }
    }

    public static void main(String[] words) throws Exception {
        LogManager.getLogManager().reset();
        PrintStream to = System.out;
        // OSM-binary's library says on standard output which frames it passes over.
        System.setOut(new PrintStream(OutputStream.nullOutputStream()));
        System.setErr(new PrintStream(OutputStream.nullOutputStream()));
        BufferedReader names = new BufferedReader(new InputStreamReader(System.in));
        for (String name = names.readLine(); name != null; name = names.readLine()) {
            to.println("# status " + read(name, words.length > 0 && words[0].equals("fast"), to));
            to.flush();
        }
    }
}
