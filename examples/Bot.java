import java.io.*;
import java.net.Socket;
import java.nio.file.*;
import java.util.*;
import java.util.regex.Pattern;

/** Plays a student's nodes, without libraries: java Bot.java SLIP, or java Bot.java PORT NAME KEYFILE NODE,..
 *  If SLIP is -, the slip is read from the environment's CENDUWA_SLIP. If KEYFILE is -, the key is read from CENDUWA_KEY.
 *  Replies are searched by patterns, without a JSON reader. Needs Java 14 or later. */
public class Bot {
    static PrintStream requests;
    static Scanner replies;

    static String stop(int status, String sentence) {
        System.err.println("Bot: " + sentence);
        System.exit(status);
        return sentence;
    }

    /** Returns the group of a pattern's first match in a text, or an empty text. */
    static String find(String pattern, String text) {
        return Pattern.compile(pattern, Pattern.MULTILINE).matcher(text).results().map(it -> it.group(1)).findFirst().orElse("");
    }

    /** Sends a line, and returns the reply. Some denials and refusals end the bot. After any other one, the bot looks again. */
    static String ask(String line) {
        requests.print(line + "\n");
        String reply = replies.next();
        return switch (find("\"(?:deny|refuse)\":\"([a-z-]+)\"", reply)) {
            case "unknown" -> stop(2, "name and key don't match: take both from your slip");
            case "not-owner" -> stop(3, "a node isn't yours: take the nodes from your slip");
            case "malformed" -> stop(3, "the server couldn't read a line as a request: correct the program");
            case "full", "journal" -> stop(6, "nothing is granted any longer: tell your teacher");
            case "over" -> stop(0, "the run is over");
            default -> reply;
        };
    }

    /** Looks at a node, and asks for its enabled rule. A marriage is with the first neighbour that points at the node. */
    static void move(String node) {
        String look = ask("{\"do\":\"look\",\"node\":" + node + "}"), rule = find("\"rule\":\"([a-z]+)\"", look);
        if (rule.isEmpty() || !look.contains("\"chosen\":null")) return;
        String with = rule.equals("marriage") ? ",\"with\":" + find("\"node\":(\\d+),\"p\":" + node + "\\}", look) : "";
        String move = "{\"do\":\"move\",\"node\":" + node + ",\"at\":" + find("\"at\":(\\d+)", look) + ",\"rule\":\"" + rule + "\"" + with + "}";
        System.out.println(ask(move));
    }

    /** Connects, says hello and plays. If no seat is free or the connection is lost, tries again each second for a minute. */
    static void play(String port, String name, String key, String[] nodes) throws InterruptedException {
        boolean wasGreeted = false;
        for (int second = 0; second <= 60; second++, Thread.sleep(1000)) {
            try (Socket server = new Socket("127.0.0.1", Integer.parseInt(port))) {
                requests = new PrintStream(server.getOutputStream(), true, "UTF-8");
                replies = new Scanner(server.getInputStream(), "UTF-8").useDelimiter("\n");
                String reply = ask("{\"do\":\"hello\",\"name\":\"" + name + "\",\"key\":\"" + key + "\"}");
                if (!reply.startsWith("{")) stop(4, "another program uses port " + port + "; ask your teacher for the port");
                wasGreeted = wasGreeted || reply.startsWith("{\"ok\"");
                for (; reply.startsWith("{\"ok\""); second = 0, Thread.sleep(100)) for (String node : nodes) move(node);
            } catch (IOException | NoSuchElementException error) {
                if (!wasGreeted) stop(4, "no server at port " + port + " answers a hello; ask your teacher for the port");
            }
        }
        stop(wasGreeted ? 7 : 5, wasGreeted ? "the connection was lost: start again" : "all seats were taken for a minute: try again later");
    }

    public static void main(String[] words) throws Exception {
        if (words.length != 1 && words.length != 4) stop(1, "usage: java Bot.java SLIP, or PORT NAME KEYFILE NODE,..");
        boolean isSlip = words.length == 1;
        String file = words[isSlip ? 0 : 2], variable = isSlip ? "CENDUWA_SLIP" : "CENDUWA_KEY", text = System.getenv(variable);
        if (!file.equals("-")) text = Files.isRegularFile(Path.of(file)) ? Files.readString(Path.of(file)) : null;
        if (text == null) stop(1, file.equals("-") ? "the environment variable " + variable + " isn't set" : file + " can't be read");
        if (!isSlip) text = "port " + words[0] + "\nname " + words[1] + "\nnodes " + words[3] + "\n" + text + "\nkey " + text.strip();
        String slip = text.replace("\\", "\\\\").replace("\"", "\\\""), port = find("^port\\s+(\\d{1,5})\\s*$", slip);
        String name = find("^name\\s+(\\S+)", slip), key = find("^key\\s+(\\S+)", slip), nodes = find("^nodes\\s+(\\d+(?:,\\d+)*)\\s*$", slip);
        String lacking = port.isEmpty() || Integer.parseInt(port) > 65535 ? "is no port" : name.isEmpty() || key.isEmpty() ? "is no name or key" : nodes.isEmpty() ? "are no nodes" : "";
        if (!lacking.isEmpty()) stop(1, "there " + lacking + " in " + (isSlip ? file : "the arguments"));
        play(port, name, key, nodes.split(","));
    }
}
