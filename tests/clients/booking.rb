# A booking by Ruby: WAY ORIGIN, with its requests on standard input, a line each: METHOD PATH, and of a POST KEY BODY. Prints the
# status and the body of each answer.
require 'net/http'
require 'stringio'

WAY, ORIGIN = ARGV

# a body that is handed over as a stream has no length, so it comes in chunks
def give(request, body)
  if WAY == 'net-http'
    request.body = body
  else
    request.body_stream = StringIO.new(body)
    request['Transfer-Encoding'] = 'chunked'
  end
end

uri = URI(ORIGIN)
Net::HTTP.start(uri.host, uri.port, nil, read_timeout: 20) do |desk|
  $stdin.each_line(chomp: true) do |line|
    method, path, key, body = line.split(' ', -1)
    request = method == 'GET' ? Net::HTTP::Get.new(path) : Net::HTTP::Post.new(path)
    request['Desk-Agent'] = 'ann'
    request['Desk-Key'] = key if key
    give(request, body) if body
    answer = desk.request(request)
    puts "#{answer.code} #{answer.body}"
  end
end
