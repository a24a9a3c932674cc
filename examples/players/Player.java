// A skeleton of a player: the server and the parsing of messages. It answers each PLAY with `noop` until you write the parts marked YOURS.
//
//     java Player.java PORT

import com.sun.net.httpserver.HttpServer;
import java.net.InetAddress;
import java.net.InetSocketAddress;
import java.nio.charset.StandardCharsets;
import java.util.HashMap;
import java.util.Map;
import java.util.concurrent.Executors;

public class Player {
    /** A role in a match. */
    static class Match {
        final InetAddress referee;

        Match(InetAddress referee, String start) {
            this.referee = referee;
            // YOURS: parse the role and the rules, and compute the first state.
        }

        String play(String message) {
            // YOURS: compute the state from the moves in the message. Then search until the play clock is nearly over: the next
            // message waits until this method returns.
            return "noop";
        }
    }

    static final Map<String, Match> matches = new HashMap<>();

    /** Returns the answer to a message, or null for a message that does not come from the match's referee. */
    static String answer(String message, String receiver, InetAddress sender) {
        String[] words = message.strip().split("[\\s()]+", 4); // an empty string, the keyword, the id, the rest
        if (words[1].equalsIgnoreCase("INFO")) return "available"; // YOURS: perhaps `busy` during a match
        String key = words[2] + " " + receiver;
        Match match = matches.get(key);
        // YOURS: compare the sender with the IP addresses that the organiser names, and forget matches that got no STOP.
        if (match != null && !match.referee.equals(sender)) return null;
        switch (words[1].toUpperCase()) {
            case "START":
                matches.put(key, new Match(sender, message));
                return "ready";
            case "PLAY":
                return match == null ? "unknown" : match.play(message);
            default:
                matches.remove(key);
                return "done";
        }
    }

    public static void main(String[] arguments) throws Exception {
        // Half a message blocks the player for at most this many seconds. The connection of a message that waits for an earlier
        // answer is closed after this time too, so make it longer than both clocks of the match.
        System.setProperty("sun.net.httpserver.maxReqTime", "20");
        HttpServer server = HttpServer.create(new InetSocketAddress(Integer.parseInt(arguments[0])), 0);
        // One thread, so that messages are processed in their order. Its stack of 256 MiB is for rules that depend on one another in
        // long chains.
        server.setExecutor(Executors.newSingleThreadExecutor(task -> new Thread(null, task, "messages", 256 << 20)));
        server.createContext("/", exchange -> {
            try (exchange) {
                String message = new String(exchange.getRequestBody().readAllBytes(), StandardCharsets.US_ASCII);
                String receiver = exchange.getRequestHeaders().getFirst("Receiver");
                String answer = answer(message, receiver, exchange.getRemoteAddress().getAddress());
                byte[] body = (answer == null ? "not your match" : answer).getBytes(StandardCharsets.US_ASCII);
                exchange.sendResponseHeaders(answer == null ? 403 : 200, body.length);
                exchange.getResponseBody().write(body);
            } catch (Throwable error) {
                error.printStackTrace(); // The server would close the connection and print nothing.
            }
        });
        server.start();
    }
}
